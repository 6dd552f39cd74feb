# Written by site_tools/import_repo from packages/py-setuptools/package.py.
class PySetuptools(Package):
    variant("build_system", default="generic", values=("generic",))
    version("69.5.1")
    version("63.4.3")
    version("59.4.0")
    depends_on("python", type=("build", "run"))
    depends_on("python@:3.11", type=("build", "run"), when="@:65")
