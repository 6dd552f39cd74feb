# Written by site_tools/import_repo from packages/sqlite/package.py.
class Sqlite(Package):
    variant("build_system", default="autotools", values=("autotools",))
    with when("build_system=autotools"):
        depends_on("gmake", type="build")
        conflicts("platform=windows")
    version("3.45.3")
    version("3.44.2")
    variant("functions", default=False)
    variant("rtree", default=True)
    depends_on("c", type="build")
    depends_on("readline")
    depends_on("zlib-api")
