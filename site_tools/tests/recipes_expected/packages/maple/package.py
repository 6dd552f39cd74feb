# Written by site_tools/import_repo from packages/maple/package.py.
class Maple(Package):
    with when("build_system=autotools"):
        depends_on("gmake", type="build")
        conflicts("platform=windows")
    with when("build_system=cmake"):
        variant("build_type", default="Release", values=("Debug", "Release", "RelWithDebInfo", "MinSizeRel"))
        variant("ipo", default=False, when="^cmake@3.9:")
        variant("generator", default="make", values=("make", "ninja"))
        depends_on("cmake", type="build")
        depends_on("gmake", type="build", when="generator=make")
        depends_on("ninja", type="build", when="generator=ninja")
    version("5.1")
    version("4.8")
    version("4.7")
    variant("build_system", default="cmake", values=("cmake", "autotools"))
    requires("@5:", when="build_system=cmake")
    requires("@:4.8", when="build_system=autotools")
    variant("syrup", default=True)
    with when("build_system=cmake"):
        depends_on("cmake@3.18:", type="build")
    with when("build_system=autotools"):
        depends_on("m4", type="build", when="@:4.7")
