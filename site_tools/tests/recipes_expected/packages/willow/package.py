# Written by site_tools/import_repo from packages/willow/package.py, with parts left out (see the report).
class Willow(Package):
    version("1.1")
    depends_on("acorn")
