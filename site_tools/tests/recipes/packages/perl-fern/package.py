# In the style of Spack's own recipes; written for the tests of site_tools.
from spack.package import *


class PerlFern(PerlPackage):
    """Reads tables."""

    url = "https://fern.example.org/Fern-1.06.tar.gz"

    version("1.06", sha256="67830a18ea87e14a8eccf7659d495efddac7f9c0ce8b82e1863b6eda223f0dc8")
    version("1.6", sha256="d031a3dbf12890030a8b2afbf26f1114072a41234e6e39ec178ea63efe54cfdd")

    depends_on("perl@5.12:", type=("build", "run"))
    depends_on("perl-test-more", type=("build", "test"))
