# Written by site_tools/import_repo from packages/rowan/package.py, with parts left out (see the report).
class Rowan(Package):
    variant("build_system", default="cmake", values=("cmake",))
    with when("build_system=cmake"):
        variant("build_type", default="Release", values=("Debug", "Release", "RelWithDebInfo", "MinSizeRel"))
        variant("ipo", default=False, when="^cmake@3.9:")
        variant("generator", default="make", values=("make", "ninja"))
        depends_on("cmake", type="build")
        depends_on("gmake", type="build", when="generator=make")
        depends_on("ninja", type="build", when="generator=ninja")
    version("1.0")
    variant("shared", default=True)
    depends_on("acorn")
    requires("^acorn +shared", when="+shared")
