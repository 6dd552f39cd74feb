# Written by site_tools/import_repo from packages/lotus/package.py.
class Lotus(Package):
    variant("build_system", default="cmake", values=("cmake",))
    with when("build_system=cmake"):
        variant("build_type", default="Release", values=("Debug", "Release", "RelWithDebInfo", "MinSizeRel"))
        variant("ipo", default=False, when="^cmake@3.9:")
        depends_on("cmake", type="build")
        depends_on("gmake", type="build", when="generator=make")
        depends_on("ninja", type="build", when="generator=ninja")
    version("1.0")
    variant("generator", default="ninja", values=("make", "ninja"), when="build_system=cmake")
    conflicts("generator=make")
    variant("build_type", default="Debug", values=("Debug", "Release"))
    depends_on("ninja@1.10:", type="build")
