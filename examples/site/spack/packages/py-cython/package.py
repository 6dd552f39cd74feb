# A recipe in the style of Spack's own, cut down for an example; written by hand, its checksums are made up.
from spack.package import *


class PyCython(PythonPackage):
    """C extensions for Python."""

    version("3.0.10", sha256="bf37d64dacced1f39fa804f232b2abcbac8d4fcfaff1be8d652d4fa041d60ec0")
    version("0.29.36", sha256="f05c7638fe7535e8a48dc8e5b412ee7a887c877819a9a989f022479d8f1e497f")

    depends_on("c", type="build")
    depends_on("py-setuptools", type=("build", "run"))
    depends_on("python@:3.11", type=("build", "link", "run"), when="@:0.29")
