# Written by site_tools/import_repo from packages/perl-fern/package.py.
class PerlFern(Package):
    variant("build_system", default="perl", values=("perl",))
    depends_on("perl", type=("build", "run"), when="build_system=perl")
    depends_on("gmake", type="build", when="build_system=perl")
    version("1.06")
    version("1.6")
    depends_on("perl@5.12:", type=("build", "run"))
    depends_on("perl-test-more", type=("build", "test"))
