# Written by site_tools/import_repo from packages/acorn/package.py.
class Acorn(Package):
    variant("build_system", default="makefile", values=("makefile",))
    with when("build_system=makefile"):
        conflicts("platform=windows")
        depends_on("gmake", type="build")
    version("main")
    version("1.4.2")
    version("1.4.1")
    version("1.3.0", deprecated=True)
    variant("shared", default=True)
    variant("pic", default=True)
    depends_on("c", type="build")
    conflicts("~pic +shared")
