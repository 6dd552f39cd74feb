# In the style of Spack 1.0; written for the tests of site_tools.
from spack_repo.wetland.build_systems.python import PythonPackage

from spack.package import *


class PyReed(PythonPackage):
    """The folder is py_reed, the package py-reed."""

    version("2.1", sha256="0")

    depends_on("wetland.sedge@3: +shared %gcc@12")
    depends_on("sedge %gcc@12 +shared")
    depends_on("sedge %c,cxx=gcc@12")
    conflicts("%sedge@:2")
    depends_on("c", type="build")
