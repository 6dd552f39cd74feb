# Written by site_tools/import_repo from packages/xz/package.py.
class Xz(Package):
    variant("build_system", default="autotools", values=("autotools",))
    with when("build_system=autotools"):
        depends_on("gmake", type="build")
        conflicts("platform=windows")
    version("5.4.6")
    version("5.4.1")
    variant("pic", default=False)
    variant("libs", default=("shared", "static"), values=("shared", "static"), multi=True)
    depends_on("c", type="build")
