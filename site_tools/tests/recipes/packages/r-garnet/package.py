# In the style of Spack's own recipes; written for the tests of site_tools.
from spack.package import *


class RGarnet(RPackage):
    """Statistics of stones."""

    cran = "garnet"

    version("0.5-2", sha256="7c78711a1e74c01c4ab89746c78cac6606c7e1e1fe75d2d5c73194fc6774164c")
    version("0.5-1", sha256="a37e5af07de9e3ed36be5b5d1b38b9c7de58fae7c8d493d0ce73dc0fc57d7322")

    depends_on("r@4:", type=("build", "run"))
    depends_on("r-rcpp@1.0.10:", type=("build", "run"), when="@0.5-2:")
