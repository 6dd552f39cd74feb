# Written by site_tools/import_repo from packages/cpp_helper/package.py, with parts left out (see the report).
class CppHelper(Package):
    variant("build_system", default="generic", values=("generic",))
    version("1.0")
    provides("iconv")
