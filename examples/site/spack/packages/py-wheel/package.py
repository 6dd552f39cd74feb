# A recipe in the style of Spack's own, cut down for an example; written by hand, its checksums are made up.
from spack.package import *


class PyWheel(Package):
    """Wheels."""

    version("0.43.0", sha256="6508897c944682f1634593fc8367f4c147a04ba2c5af3ad4447c122d2d9223f3")
    version("0.41.2", sha256="f5bf6053b7ab64f39b527ff7b303a93a3cc52c385f7a965e8db5f3382b213acb")

    extends("python")
    depends_on("python@3.8:", type=("build", "run"), when="@0.43:")
