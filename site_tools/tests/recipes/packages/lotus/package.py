# In the style of Spack's own recipes; written for the tests of site_tools.
from spack.package import *
from spack.build_systems.cmake import CMakePackage, generator


class Lotus(CMakePackage):
    """Built by Ninja alone."""

    version("1.0", sha256="876fd83ce1ed4c92e2ed89992c37e6ef555fb6372aa4e36a83c8447e5ab1c173")

    generator("ninja")

    variant("build_type", default="Debug", values=("Debug", "Release"), description="For debugging first")
    depends_on("ninja@1.10:", type="build")
