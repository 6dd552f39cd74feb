# Written by site_tools/import_repo from packages/py-cython/package.py.
class PyCython(Package):
    variant("build_system", default="python_pip", values=("python_pip",))
    with when("build_system=python_pip"):
        depends_on("python", type=("build", "run"))
        depends_on("py-pip", type="build")
        depends_on("py-wheel", type="build")
    version("3.0.10")
    version("0.29.36")
    depends_on("c", type="build")
    depends_on("py-setuptools", type=("build", "run"))
    depends_on("python@:3.11", type=("build", "link", "run"), when="@:0.29")
