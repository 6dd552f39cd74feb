# Written by site_tools/import_repo from packages/lz4/package.py.
class Lz4(Package):
    variant("build_system", default="makefile", values=("makefile",))
    with when("build_system=makefile"):
        conflicts("platform=windows")
        depends_on("gmake", type="build")
    version("1.9.4")
    version("1.9.3")
    variant("libs", default=("shared", "static"), values=("shared", "static"), multi=True)
    depends_on("c", type="build")
