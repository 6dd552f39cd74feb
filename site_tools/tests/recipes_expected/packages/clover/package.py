# Written by site_tools/import_repo from packages/clover/package.py, with parts left out (see the report).
class Clover(Package):
    variant("build_system", default="generic", values=("generic",))
    version("2.4.1")
    depends_on("cedar@2.4:", when="@2.4.1")
    version("2.3.0")
    depends_on("cedar@2.3:", when="@2.3.0")
    version("1.9.9")
    conflicts("@1.10")
