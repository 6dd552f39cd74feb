# Written by site_tools/import_repo from packages/larch/package.py.
class Larch(Package):
    variant("build_system", default="makefile", values=("makefile",))
    with when("build_system=makefile"):
        conflicts("platform=windows")
        depends_on("gmake", type="build")
    version("2.5")
    version("2.4")
    variant("backend", default="plain", values=("plain", "tree", "graph", "net", "old"))
    requires("@2.5:", when="backend=graph")
    requires("@2.5:", when="backend=net")
    requires("@:2.4 +tools", when="backend=old")
    variant("tools", default=False)
    variant("level", default="1", values=("1", "2"), when="+tools")
