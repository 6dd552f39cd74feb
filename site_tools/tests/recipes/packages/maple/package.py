# In the style of Spack's own recipes; written for the tests of site_tools.
from spack.package import *
from spack.build_systems import autotools, cmake


class Maple(CMakePackage, AutotoolsPackage):
    """It changed from Autotools to CMake."""

    url = "https://maple.example.org/maple-5.1.tar.gz"

    version("5.1", sha256="2b75af695d8b70b7301a0b45c99372892b096d4379eb018fbb636a574d4f3d8f")
    version("4.8", sha256="0617c05c6389f06133e34fba7558f7cc6734c208bdb0f513abd454bbf96c0a65")
    version("4.7", sha256="f4d2f20484b314b8184711e2164d5679d86279ed60ab79a8138851ee25670fa8")

    build_system(conditional("cmake", when="@5:"), conditional("autotools", when="@:4.8"), default="cmake")

    variant("syrup", default=True, description="With syrup")

    with when("build_system=cmake"):
        depends_on("cmake@3.18:", type="build")

    with when("build_system=autotools"):
        depends_on("m4", type="build", when="@:4.7")


class CMakeBuilder(cmake.CMakeBuilder):
    def cmake_args(self):
        return []


class AutotoolsBuilder(autotools.AutotoolsBuilder):
    def configure_args(self):
        return []
