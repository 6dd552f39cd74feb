# Written by site_tools/import_repo from packages/basalt/package.py.
class Basalt(Package):
    variant("build_system", default="cmake", values=("cmake",))
    with when("build_system=cmake"):
        variant("build_type", default="Release", values=("Debug", "Release", "RelWithDebInfo", "MinSizeRel"))
        variant("ipo", default=False, when="^cmake@3.9:")
        variant("generator", default="make", values=("make", "ninja"))
        depends_on("cmake", type="build")
        depends_on("gmake", type="build", when="generator=make")
        depends_on("ninja", type="build", when="generator=ninja")
    version("2.1.0")
    version("2.0.3", preferred=True)
    version("1.9")
    variant("mpi", default=True)
    variant("openmp", default=False)
    variant("int64", default=False, when="@2:")
    depends_on("cmake@3.14:", type="build")
    depends_on("acorn@1.3:")
    with when("+mpi"):
        depends_on("mpi")
        depends_on("acorn +shared", when="@2.1:")
        with when("+openmp"):
            conflicts("%clang@:10")
    conflicts("+int64", when="~mpi")
