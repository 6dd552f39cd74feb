# Written by site_tools/import_repo from packages/_7rush/package.py.
class _7rush(Package):
    variant("build_system", default="cmake", values=("cmake",))
    with when("build_system=cmake"):
        variant("unity", default=False)
        variant("generator", default="make", values=("make", "ninja"))
        depends_on("cmake", type="build")
        depends_on("ninja", type="build", when="generator=ninja")
    version("3.1")
    variant("shared", default=True)
    variant("size", default="small", values=("small", "large"))
    depends_on("tule", when="+shared")
    with when("size=large"):
        depends_on("tule +deep", type="link", when="@3:")
    version("1.0")
    conflicts("size=small", when="@1.0 ~shared")
    conflicts("size=large", when="@1.0 ~shared")
