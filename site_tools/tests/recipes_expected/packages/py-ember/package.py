# Written by site_tools/import_repo from packages/py-ember/package.py.
class PyEmber(Package):
    variant("build_system", default="python_pip", values=("python_pip",))
    with when("build_system=python_pip"):
        depends_on("python", type=("build", "run"))
        depends_on("py-pip", type="build")
        depends_on("py-wheel", type="build")
    version("3.2.1")
    version("3.1.0")
    version("2.4.4")
    variant("plot", default=False)
    depends_on("python@3.9:", type=("build", "link", "run"))
    depends_on("py-setuptools@61:", type="build")
    depends_on("py-cython@3:", type="build", when="@3:")
    with when("@:2"):
        depends_on("py-cython@0.29", type="build")
    with when("+plot"):
        depends_on("py-easel@1.2:", type=("build", "run"))
        depends_on("py-easel@2:", type=("build", "run"), when="@3.2:")
    depends_on("py-pytest", type="test")
