# Written by site_tools/import_repo from packages/libiconv/package.py.
class Libiconv(Package):
    variant("build_system", default="autotools", values=("autotools",))
    with when("build_system=autotools"):
        depends_on("gmake", type="build")
        conflicts("platform=windows")
    version("1.17")
    variant("libs", default=("shared", "static"), values=("shared", "static"), multi=True)
    depends_on("c", type="build")
    provides("iconv")
