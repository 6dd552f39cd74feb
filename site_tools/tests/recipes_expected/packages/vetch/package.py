# Written by site_tools/import_repo from packages/vetch/package.py, with parts left out (see the report).
class Vetch(Package):
    variant("build_system", default="generic", values=("generic",))
    version("1.1")
    depends_on("part0")
    depends_on("part1")
    depends_on("part2")
    depends_on("cedar")
    depends_on("dunes", when="@a")
