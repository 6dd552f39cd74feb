# Written by site_tools/import_repo from packages/quartz/package.py.
class Quartz(Package):
    depends_on("acorn@1.4:", when="+resin")
    variant("build_system", default="makefile", values=("makefile",))
    with when("build_system=makefile"):
        conflicts("platform=windows")
        depends_on("gmake", type="build")
    version("3.1", preferred=True)
    version("3.0")
    variant("cone", default="small", values=("small", "large"))
    conflicts("cone=large", when="~resin")
    version("3.2")
    variant("resin", default=False)
    depends_on("cedar", when="@3.2 cone=small")
    depends_on("cedar", when="@3.2 cone=large")
