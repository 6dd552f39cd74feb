# Written by site_tools/import_repo from packages/umber/package.py, with parts left out (see the report).
class Umber(Package):
    variant("build_system", default="generic", values=("generic",))
    version("1.1")
    depends_on("acorn")
    variant("shared", default=True)
    depends_on("basalt")
    conflicts("%clang", when="@1.0")
