# Written by site_tools/import_repo from packages/tansy/package.py, with parts left out (see the report).
class Tansy(Package):
    variant("build_system", default="generic", values=("generic",))
    version("7.2")
    variant("mode", default="fast", values=("fast", "safe"))
    variant("sets", default="a", values=("a", "b"), multi=True)
    depends_on("acorn", when="threads=64")
