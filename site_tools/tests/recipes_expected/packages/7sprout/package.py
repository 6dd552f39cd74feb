# Written by site_tools/import_repo from packages/7sprout/package.py.
class _7sprout(Package):
    variant("build_system", default="generic", values=("generic",))
    version("22.1")
    depends_on("acorn", type="link")
