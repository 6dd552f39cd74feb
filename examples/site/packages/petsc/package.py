# Written by site_tools/import_repo from packages/petsc/package.py.
class Petsc(Package):
    variant("build_system", default="generic", values=("generic",))
    version("3.21.1")
    version("3.20.5")
    variant("mpi", default=True)
    variant("hypre", default=True)
    variant("hdf5", default=True)
    variant("int64", default=False)
    depends_on("c", type="build")
    depends_on("gmake", type="build")
    depends_on("python@3.6:", type="build")
    depends_on("blas")
    depends_on("lapack")
    depends_on("mpi", when="+mpi")
    with when("+hdf5"):
        depends_on("hdf5@:1.14 +hl")
        depends_on("hdf5 +mpi", when="+mpi")
    with when("+hypre"):
        depends_on("hypre +int64", when="+int64")
        depends_on("hypre ~int64", when="~int64")
        conflicts("~mpi")
