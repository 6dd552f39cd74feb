# A recipe in the style of Spack's own, cut down for an example; written by hand, its checksums are made up.
from spack.package import *


class Petsc(Package):
    """Equations on large machines."""

    version("3.21.1", sha256="6fca28885bf32ed86d3f4846e8dfe0db94e79d782ff6fd677feaf796495d8e3b")
    version("3.20.5", sha256="39726d65f1c56a585eb4ad39e1cebcc22cf8c7e45a35efe880fd0acef3064797")

    variant("mpi", default=True, description="With MPI")
    variant("hypre", default=True, description="With hypre")
    variant("hdf5", default=True, description="With HDF5")
    variant("int64", default=False, description="64-bit integers")

    depends_on("c", type="build")
    depends_on("gmake", type="build")
    depends_on("python@3.6:", type="build")
    depends_on("blas")
    depends_on("lapack")
    depends_on("mpi", when="+mpi")
    with when("+hdf5"):
        depends_on("hdf5@:1.14+hl")
        depends_on("hdf5+mpi", when="+mpi")
    with when("+hypre"):
        depends_on("hypre+int64", when="+int64")
        depends_on("hypre~int64", when="~int64")
        conflicts("~mpi")
