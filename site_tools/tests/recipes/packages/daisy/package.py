# In the style of Spack's own recipes; written for the tests of site_tools.
from spack.package import *


class Daisy(Package):
    """Values in sets that exclude each other."""

    version("1.0", sha256="c6ea6c89234664bd63fee9cf835539fb4b10b2b5203b7e6edb19d52c0cafacd3")

    variant(
        "blas",
        default="system",
        values=disjoint_sets(("system",), ("open", "lapack"), ("mkl",)).prohibit_empty_set().with_error("one set"),
        description="Libraries",
    )
    variant("logs", values=disjoint_sets(("text", "json")), when="+x", description="Logs")
    variant("x", default=False, description="X")
