# Written by site_tools/import_repo from packages/libffi/package.py.
class Libffi(Package):
    variant("build_system", default="autotools", values=("autotools",))
    with when("build_system=autotools"):
        depends_on("gmake", type="build")
        conflicts("platform=windows")
    version("3.4.6")
    version("3.4.4")
    depends_on("c", type="build")
