# Written by site_tools/import_repo from packages/readline/package.py.
class Readline(Package):
    variant("build_system", default="autotools", values=("autotools",))
    with when("build_system=autotools"):
        depends_on("gmake", type="build")
        conflicts("platform=windows")
    version("8.2")
    version("8.1")
    depends_on("c", type="build")
    depends_on("ncurses")
