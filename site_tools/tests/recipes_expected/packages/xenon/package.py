# Written by site_tools/import_repo from packages/xenon/package.py, with parts left out (see the report).
class Xenon(Package):
    variant("build_system", default="generic", values=("generic",))
    version("develop")
    version("3.2-rc1")
    version("3.1")
    version("3.0", deprecated=True)
    version("2020.04.01")
    version("2.9", deprecated=True)
    version("2.8")
    depends_on("dunes@=0.9", when="@=3.1")
