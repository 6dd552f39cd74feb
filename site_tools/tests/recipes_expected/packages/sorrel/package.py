# Written by site_tools/import_repo from packages/sorrel/package.py, with parts left out (see the report).
class Sorrel(Package):
    variant("build_system", default="generic", values=("generic",))
    version("2.0")
    conflicts("^nettle-x")
    depends_on("cedar@4:")
