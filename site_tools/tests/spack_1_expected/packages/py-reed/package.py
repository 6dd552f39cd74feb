# Written by site_tools/import_repo from packages/py_reed/package.py, with parts left out (see the report).
class PyReed(Package):
    variant("build_system", default="python_pip", values=("python_pip",))
    depends_on("python", type=("build", "run"), when="build_system=python_pip")
    version("2.1")
    depends_on("sedge@3: +shared %gcc@12")
    depends_on("c", type="build")
