# Written by site_tools/import_repo from packages/py-wheel/package.py.
class PyWheel(Package):
    variant("build_system", default="generic", values=("generic",))
    version("0.43.0")
    version("0.41.2")
    depends_on("python", type=("build", "run"))
    depends_on("python@3.8:", type=("build", "run"), when="@0.43:")
