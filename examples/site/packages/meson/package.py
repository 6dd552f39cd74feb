# Written by site_tools/import_repo from packages/meson/package.py.
class Meson(Package):
    variant("build_system", default="generic", values=("generic",))
    version("1.4.0")
    version("1.3.2")
    depends_on("python", type=("build", "run"))
    depends_on("python@3.7:", type=("build", "run"))
    depends_on("ninja", type="run")
