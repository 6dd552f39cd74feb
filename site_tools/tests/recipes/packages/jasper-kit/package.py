# In the style of Spack's own recipes; written for the tests of site_tools.
import spack.variant
from spack.package import *


class JasperKit(AutotoolsPackage):
    """Networks: some fabrics together, or none."""

    url = "https://jasper.example.org/jasper-kit-1.9.tar.gz"

    version("1.9", sha256="82538753cfc870a31151ed2e0daf7224181dcfb25e8f875d045748a10b053e03")
    version("1.8", sha256="0885e1ece6b31ca5274fa90290d10eb89428b79a19e6887f52321e32d051a26a")

    variant(
        "fabrics",
        values=spack.variant.auto_or_any_combination_of("ofi", "ucx", "tcp").with_non_feature_values("auto"),
        description="Fabrics; auto asks the machine",
    )
    variant("schedulers", values=any_combination_of("slurm", "lsf"), description="Schedulers")

    depends_on("acorn", when="fabrics=ofi")
    depends_on("cedar", when="fabrics=ucx schedulers=slurm")

    provides("net-api@1.9", when="@1.9")
