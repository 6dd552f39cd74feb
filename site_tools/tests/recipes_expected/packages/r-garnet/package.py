# Written by site_tools/import_repo from packages/r-garnet/package.py.
class RGarnet(Package):
    variant("build_system", default="generic", values=("generic",))
    depends_on("r", type=("build", "run"))
    version("0.5-2")
    version("0.5-1")
    depends_on("r@4:", type=("build", "run"))
    depends_on("r-rcpp@1.0.10:", type=("build", "run"), when="@0.5-2:")
