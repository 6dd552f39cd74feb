# Written by site_tools/import_repo from packages/pine/package.py.
class Pine(Package):
    variant("resin", default=True)
    depends_on("acorn@1.4:", when="+resin")
    variant("build_system", default="makefile", values=("makefile",))
    with when("build_system=makefile"):
        conflicts("platform=windows")
        depends_on("gmake", type="build")
    version("3.1")
    version("3.0")
    variant("cone", default="small", values=("small", "large"))
    conflicts("cone=large", when="~resin")
