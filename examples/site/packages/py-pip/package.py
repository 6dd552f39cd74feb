# Written by site_tools/import_repo from packages/py-pip/package.py.
class PyPip(Package):
    variant("build_system", default="generic", values=("generic",))
    version("24.0")
    version("23.1.2")
    depends_on("python", type=("build", "run"))
    depends_on("python@3.7:", type=("build", "run"))
