# Written by site_tools/import_repo from packages/ivy/package.py, with parts left out (see the report).
class Ivy(Package):
    variant("build_system", default="generic", values=("generic",))
    version("1.0")
    depends_on("pine", when="+before")
    depends_on("acorn", when="+a")
    depends_on("acorn", when="+b")
    variant("d", default=False)
    variant("e", default=False)
    depends_on("basalt", when="+x")
    depends_on("basalt", when="+y")
    depends_on("quartz", when="+g")
    depends_on("quartz", when="+h")
