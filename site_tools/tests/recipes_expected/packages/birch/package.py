# Written by site_tools/import_repo from packages/birch/package.py, with parts left out (see the report).
class Birch(Package):
    variant("build_system", default="generic", values=("generic",))
    version("1.2")
    variant("part-00", default=False)
    variant("part-02", default=False)
    conflicts("+part-00 +part-02")
    requires("%gcc@8:", "%clang@7:", policy="any_of")
    variant("PART-09", default=True)
    depends_on("acorn@1.4:")
