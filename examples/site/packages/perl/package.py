# Written by site_tools/import_repo from packages/perl/package.py.
class Perl(Package):
    variant("build_system", default="generic", values=("generic",))
    version("5.38.0")
    version("5.36.0")
    variant("threads", default=True)
    depends_on("c", type="build")
    depends_on("bzip2 +shared")
    depends_on("zlib-api")
