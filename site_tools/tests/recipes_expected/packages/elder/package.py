# Written by site_tools/import_repo from packages/elder/package.py.
class Elder(Package):
    variant("build_system", default="generic", values=("generic",))
    version("1.0")
    version("0.9")
    depends_on("acorn")
    depends_on("dunes")
    depends_on("basalt")
    conflicts("@0.9", when="%gcc@13:")
    depends_on("pine")
