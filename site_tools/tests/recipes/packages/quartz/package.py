# In the style of Spack's own recipes; written for the tests of site_tools.
from spack.package import *
from spack.pkg.builtin.pine import Pine


class Quartz(Pine):
    """A fork of Pine: all that Pine has, and more."""

    version("3.2", sha256="a51e34a82e05d82cf539d3caab868f7cce608b8059b13680e2a95b941ab60a2d")
    version("3.1", sha256="8fb996f02dc964215a56f52a18c59f180e134403dd9b5ed90b9bae8eb66d5549", preferred=True)

    variant("resin", default=False, description="No resin here")

    for size in Pine.cones:
        depends_on("cedar", when=f"@3.2 cone={size}")
