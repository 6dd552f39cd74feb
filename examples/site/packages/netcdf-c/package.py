# Written by site_tools/import_repo from packages/netcdf-c/package.py.
class NetcdfC(Package):
    variant("build_system", default="autotools", values=("autotools",))
    with when("build_system=autotools"):
        depends_on("gmake", type="build")
        conflicts("platform=windows")
    version("4.9.2")
    version("4.8.1")
    variant("mpi", default=True)
    variant("szip", default=False, when="@4.9:")
    depends_on("c", type="build")
    depends_on("bzip2", when="@4.9:")
    depends_on("curl@7.18:")
    depends_on("zstd", when="@4.9:")
    with when("+mpi"):
        depends_on("mpi")
        depends_on("hdf5 +hl +mpi")
    with when("~mpi"):
        depends_on("hdf5 +hl ~mpi")
    depends_on("hdf5@1.8.9:")
    conflicts("+szip")
