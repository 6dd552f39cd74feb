# Written by site_tools/import_repo from packages/mpich/package.py.
class Mpich(Package):
    variant("build_system", default="autotools", values=("autotools",))
    with when("build_system=autotools"):
        depends_on("gmake", type="build")
        conflicts("platform=windows")
    version("4.2.1")
    version("4.1.2")
    version("3.4.3")
    variant("device", default="ch4", values=("ch3", "ch4"))
    variant("hwloc", default=True)
    variant("fortran", default=True)
    provides("mpi@:4.0")
    provides("mpi@:3.1", when="@:3.2")
    depends_on("c", type="build")
    depends_on("hwloc@2:", when="@3.3: +hwloc")
    depends_on("pkgconfig", type="build")
    conflicts("device=ch3", when="@4.2:")
    conflicts("%gcc@:7", when="@4:")
