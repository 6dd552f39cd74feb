# In the style of Spack's own recipes; written for the tests of site_tools.
from spack.build_systems.cmake import CMakeBuilder
from spack.package import *


class Basalt(CMakePackage):
    """Sparse matrices in blocks."""

    homepage = "https://basalt.example.org"
    url = "https://basalt.example.org/v2.1.0.tar.gz"

    version("2.1.0", sha256="ca593aafc36b027b769dd86914a9deee28142c43c5499112fa518d57b3b27fe8")
    version("2.0.3", sha256="d66c4f2d0d7aaa4d1a54ba88d241e851a90ce543d6aa2e21f7c202b6a47f5ea7", preferred=True)
    version("1.9", sha256="0f3d3eb73f651bea9b0dd251e2ca0af357cb255f65791f1045ec6312db6ffd86")

    variant("mpi", default=True, description="Build with MPI")
    variant("openmp", default=False, description="Threads by OpenMP")
    variant("int64", default=False, when="@2:", description="64-bit indices")

    depends_on("cmake@3.14:", type="build")
    depends_on("acorn@1.3:")

    with when("+mpi"):
        depends_on("mpi")
        depends_on("acorn+shared", when="@2.1:")
        with when("+openmp"):
            conflicts("%clang@:10", msg="its OpenMP has a fault beside MPI")

    conflicts("+int64", when="~mpi")

    def cmake_args(self):
        return [self.define_from_variant("BASALT_MPI", "mpi")]


class CMakeBuilder(CMakeBuilder):
    def cmake_args(self):
        return []
