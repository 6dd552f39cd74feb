# A recipe in the style of Spack's own, cut down for an example; written by hand, its checksums are made up.
from spack.package import *


class Hypre(AutotoolsPackage, CudaPackage):
    """Solvers of linear systems."""

    version("2.31.0", sha256="7044861f3be94c33066925ac69505c54fca1440895e6e258034ffec2b7545890")
    version("2.30.0", sha256="39803d76dcd88cf8ecdba36b8979f5152759211d08295525b9db63656ba34833")

    variant("mpi", default=True, description="With MPI")
    variant("int64", default=False, description="64-bit integers")

    depends_on("c", type="build")
    depends_on("mpi", when="+mpi")
    depends_on("blas")
    depends_on("lapack")

    conflicts("+cuda", when="+int64")
