# A recipe in the style of Spack's own, cut down for an example; written by hand, its checksums are made up.
from spack.package import *


class Expat(AutotoolsPackage, CMakePackage):
    """Reads XML."""

    build_system("autotools", "cmake", default="autotools")

    version("2.6.2", sha256="c6de92a72b12b1c6dd641f6e8e3e679b6fdeae1722caff20e8ca011bf3cb54a5")

    depends_on("c", type="build")
    depends_on("cxx", type="build")
