# Written by site_tools/import_repo from packages/tule/package.py, with parts left out (see the report).
class Tule(Package):
    variant("build_system", default="autotools", values=("autotools",))
    with when("build_system=autotools"):
        depends_on("gmake", type="build")
        conflicts("platform=windows")
    version("1.0")
    variant("deep", default=False, when="@2:")
