# Written by site_tools/import_repo from packages/nettle-x/package.py.
class NettleX(Package):
    variant("build_system", default="generic", values=("generic",))
    version("9.1")
    version("8.0")
    variant("fortran", default=True)
    provides("mpi@:4", when="@9:")
    provides("mpi@:3.1", when="@8")
    with when("+fortran"):
        provides("mpi-fortran", "mpi-f90@2:3")
    provides("sting-api")
