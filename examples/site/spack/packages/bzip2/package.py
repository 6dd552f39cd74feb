# A recipe in the style of Spack's own, cut down for an example; written by hand, its checksums are made up.
from spack.package import *


class Bzip2(Package):
    """Compression of blocks."""

    version("1.0.8", sha256="4f9a8be0140e2282dc4097e957d28063f810a72fafad6cb3d491228538c07995")

    variant("shared", default=True, description="Shared library")
    variant("pic", default=False, description="Position independent code")

    depends_on("c", type="build")
    depends_on("diffutils", type="build")
