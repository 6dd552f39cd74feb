# Written by site_tools/import_repo from packages/fir/package.py, with parts left out (see the report).
class Fir(Package):
    variant("build_system", default="generic", values=("generic",))
    version("3")
    version("2")
    variant("a", default=True)
    variant("b", default=True)
    with when("@2:"):
        with when("+a"):
            depends_on("acorn")
            with when("^acorn@1.4: +shared"):
                depends_on("cedar", when="+b")
                conflicts("%gcc@:5")
            provides("fir-api@2", when="+b")
        with when("~a"):
            with when("~b"):
                conflicts("@3")
        conflicts("~a", when="+b")
