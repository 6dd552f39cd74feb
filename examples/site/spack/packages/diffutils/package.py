# A recipe in the style of Spack's own, cut down for an example; written by hand, its checksums are made up.
from spack.package import *


class Diffutils(AutotoolsPackage, GNUMirrorPackage):
    """Says how files differ."""

    gnu_mirror_path = "diffutils/diffutils-3.9.tar.xz"

    version("3.10", sha256="6538f3b6788cbbadf5734db0ab96d09072d72ded7a3bcc15b1caa5cff80daf53")
    version("3.9", sha256="7cee22046d1fec507c233104a5c67cf6e283b3a37e4a8a712530b0a87a23766a")

    depends_on("c", type="build")
    depends_on("libiconv")
