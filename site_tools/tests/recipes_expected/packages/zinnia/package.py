# Written by site_tools/import_repo from packages/zinnia/package.py, with parts left out (see the report).
class Zinnia(Package):
    variant("build_system", default="generic", values=("generic",))
    version("1")
    conflicts("%gcc@:4.8,6")
    conflicts("%apple-clang@15:")
    conflicts("%clang@:11")
    conflicts("+shared %gcc@12")
    depends_on("acorn +shared %gcc@9:")
