# Written by site_tools/import_repo from packages/gmake/package.py.
class Gmake(Package):
    variant("build_system", default="generic", values=("generic",))
    version("4.4.1")
    version("4.3")
    variant("guile", default=False)
    depends_on("c", type="build")
    conflicts("+guile")
