# Written by site_tools/import_repo from packages/pkgconf/package.py.
class Pkgconf(Package):
    variant("build_system", default="autotools", values=("autotools",))
    with when("build_system=autotools"):
        depends_on("gmake", type="build")
        conflicts("platform=windows")
    version("2.2.0")
    version("1.9.5")
    provides("pkgconfig")
    depends_on("c", type="build")
