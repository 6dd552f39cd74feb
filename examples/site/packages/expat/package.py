# Written by site_tools/import_repo from packages/expat/package.py.
class Expat(Package):
    with when("build_system=cmake"):
        variant("build_type", default="Release", values=("Debug", "Release", "RelWithDebInfo", "MinSizeRel"))
        variant("ipo", default=False, when="^cmake@3.9:")
        variant("generator", default="make", values=("make", "ninja"))
        depends_on("cmake", type="build")
        depends_on("gmake", type="build", when="generator=make")
        depends_on("ninja", type="build", when="generator=ninja")
    with when("build_system=autotools"):
        depends_on("gmake", type="build")
        conflicts("platform=windows")
    variant("build_system", default="autotools", values=("autotools", "cmake"))
    version("2.6.2")
    depends_on("c", type="build")
    depends_on("cxx", type="build")
