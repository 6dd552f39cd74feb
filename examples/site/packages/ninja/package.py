# Written by site_tools/import_repo from packages/ninja/package.py.
class Ninja(Package):
    variant("build_system", default="generic", values=("generic",))
    version("1.12.0")
    version("1.11.1")
    depends_on("cxx", type="build")
    depends_on("python", type="build")
