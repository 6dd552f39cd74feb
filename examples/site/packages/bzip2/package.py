# Written by site_tools/import_repo from packages/bzip2/package.py.
class Bzip2(Package):
    variant("build_system", default="generic", values=("generic",))
    version("1.0.8")
    variant("shared", default=True)
    variant("pic", default=False)
    depends_on("c", type="build")
    depends_on("diffutils", type="build")
