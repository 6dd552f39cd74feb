# Written by site_tools/import_repo from packages/ncurses/package.py.
class Ncurses(Package):
    variant("build_system", default="autotools", values=("autotools",))
    with when("build_system=autotools"):
        depends_on("gmake", type="build")
        conflicts("platform=windows")
    version("6.5")
    version("6.4")
    variant("symlinks", default=False)
    variant("termlib", default=True)
    variant("abi", default="none", values=("5", "6", "none"))
    depends_on("c", type="build")
    depends_on("pkgconfig", type="build")
