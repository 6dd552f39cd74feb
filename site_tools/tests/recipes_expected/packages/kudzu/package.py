# Written by site_tools/import_repo from packages/kudzu/package.py, with parts left out (see the report).
class Kudzu(Package):
    variant("build_system", default="generic", values=("generic",))
    version("1.0")
    provides("kudzu-api")
