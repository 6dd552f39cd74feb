# In the style of Spack's own recipes; written for the tests of site_tools.
from spack.package import *


class PyEmber(PythonPackage):
    """Arrays for Python."""

    homepage = "https://ember.example.org"
    pypi = "ember/ember-3.2.1.tar.gz"

    skip_modules = ["ember.tests"]

    license("BSD-3-Clause")

    version("3.2.1", sha256="f677386020b6f619c217a152d5d00c35c25c86439531cd4a891631e086f8fca0")
    version("3.1.0", sha256="2d3434c61200ae716633582974a533d93243f1c1de7d8c1e183e994ff57ee5af")
    version("2.4.4", sha256="c46b3ba9bfb6fcd0bf9e4da2d4524832af612154cf275bcbccae96f9647fb37a")

    variant("plot", default=False, description="Plotting")

    depends_on("python@3.9:", type=("build", "link", "run"))

    with default_args(type="build"):
        depends_on("py-setuptools@61:")
        depends_on("py-cython@3:", when="@3:")
        with when("@:2"):
            depends_on("py-cython@0.29")

    with when("+plot"), default_args(type=("build", "run")):
        depends_on("py-easel@1.2:")
        depends_on("py-easel@2:", when="@3.2:")

    depends_on("py-pytest", type="test")
