# Written by site_tools/import_repo from packages/zlib/package.py.
class Zlib(Package):
    with when("build_system=makefile"):
        conflicts("platform=windows")
        depends_on("gmake", type="build")
    version("1.3.1")
    version("1.3")
    version("1.2.13")
    version("1.2.11", deprecated=True)
    variant("build_system", default="makefile", values=("makefile", "generic"))
    requires("platform=windows", when="build_system=generic")
    variant("optimize", default=True)
    variant("pic", default=True)
    variant("shared", default=True)
    depends_on("c", type="build")
    conflicts("~pic +shared")
    provides("zlib-api")
