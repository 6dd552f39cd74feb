# Written by site_tools/import_repo from packages/iris/package.py.
class Iris(Package):
    variant("build_system", default="generic", values=("generic",))
    version("12.2")
    version("12.1")
    version("11.8", deprecated=True)
    depends_on("acorn@1.4:", type=("build", "link", "run"))
    variant("net", default=True)
    variant("gpu", default=False)
    conflicts("+gpu", when="~net")
    variant("doc", default=False)
    conflicts("+doc", when="~net")
