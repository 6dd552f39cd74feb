# In the style of Spack's own recipes; written for the tests of site_tools.
from spack.package import *


class WithResin(PackageBase):
    variant("resin", default=True, description="Resin")
    depends_on("acorn@1.4:", when="+resin")


class Pine(MakefilePackage, WithResin):
    """A tree, with a class beside it that others use as well."""

    cones = ("small", "large")

    version("3.1", sha256="05408031af3936ebd81be5b01dfae03c9edafe34cfef6fb2db9d8e2a55f01695")
    version("3.0", sha256="0b3428e40c475d34a9afa17dcfe11b5202956ee640a5d1d2873f792a0cd59d12")

    variant("cone", default=cones[0], values=cones, description="Cones")
    conflicts("cone=large", when="~resin")
