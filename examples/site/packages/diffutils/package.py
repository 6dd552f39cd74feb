# Written by site_tools/import_repo from packages/diffutils/package.py.
class Diffutils(Package):
    variant("build_system", default="autotools", values=("autotools",))
    with when("build_system=autotools"):
        depends_on("gmake", type="build")
        conflicts("platform=windows")
    version("3.10")
    version("3.9")
    depends_on("c", type="build")
    depends_on("libiconv")
