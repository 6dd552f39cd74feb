# A recipe in the style of Spack's own, cut down for an example; written by hand, its checksums are made up.
from spack.package import *


class Openblas(CMakePackage, MakefilePackage):
    """Fast linear algebra."""

    version("0.3.27", sha256="1c2e7a90b04102ed32a5942083728f395ad291e94ccbd3fa75e528db52cf5eb5")
    version("0.3.26", sha256="8971cea1a8067d3e0d65a418a255c6f575d7805f89dd2bb8c6a09d87ee7bd3cf")
    version("0.3.20", sha256="d2c600de15668139538b87037d3a72072595bcccab381382ffa241e7e30fde77")

    variant("ilp64", default=False, description="64-bit integers")
    variant("shared", default=True, description="Shared library")
    variant("threads", default="none", values=("pthreads", "openmp", "none"), multi=False, description="Threads")

    build_system("makefile", "cmake", default="makefile")

    provides("blas", "lapack")

    depends_on("c", type="build")
    depends_on("fortran", type="build")
    depends_on("perl", type="build")

    conflicts("threads=openmp", when="%clang")
    requires("%gcc@8:", "%clang", policy="any_of", when="@0.3.27:", msg="needs a newer compiler")
