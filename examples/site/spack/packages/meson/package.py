# A recipe in the style of Spack's own, cut down for an example; written by hand, its checksums are made up.
from spack.package import *


class Meson(Package):
    """A build system in Python."""

    version("1.4.0", sha256="9d25d43f6f4d9f5d9b54e9b75fe36013d80d2e6b90d39066b56b67278a83d387")
    version("1.3.2", sha256="1a3936b1f4a3ce008c953411f7a5f2735829f6802d17372557f48b0811e2e418")

    extends("python")
    depends_on("python@3.7:", type=("build", "run"))
    depends_on("ninja", type="run")
