# Written by site_tools/import_repo from packages/sedge/package.py.
class Sedge(Package):
    variant("build_system", default="cmake", values=("cmake",))
    with when("build_system=cmake"):
        variant("unity", default=False)
        variant("generator", default="make", values=("make", "ninja"))
        depends_on("cmake", type="build")
        depends_on("ninja", type="build", when="generator=ninja")
    version("3.1")
    variant("shared", default=True)
    variant("size", default="small", values=("small", "large"))
    depends_on("tule", when="+shared")
    with when("size=large"):
        depends_on("tule +deep", type="link", when="@3:")
