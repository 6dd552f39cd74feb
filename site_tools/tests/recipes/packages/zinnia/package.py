# In the style of Spack's own recipes; written for the tests of site_tools.
from spack.package import *


class Zinnia(Package):
    """What stands behind `%`."""

    version("1", sha256="cf565e53c88a007219ff8df1e8ff91da20558d064a64f1c206b00327d81cf69e")

    conflicts("%gcc@:4.8,6")
    conflicts("%gcc @:4.8")
    conflicts("%apple-clang@15:")
    conflicts("%llvm@:11")
    conflicts("%cmake@3.20")
    conflicts("%gcc %clang")
    conflicts("%%gcc")
    conflicts("%[virtuals=c] gcc")
    conflicts("%gcc@12+shared")
    depends_on("acorn %gcc@9: +shared")
