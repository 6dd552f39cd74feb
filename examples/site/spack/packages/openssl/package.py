# A recipe in the style of Spack's own, cut down for an example; written by hand, its checksums are made up.
from spack.package import *


class Openssl(Package):
    """TLS and ciphers."""

    version("3.3.0", sha256="7cbdea263af1afa164a255f760a065bbab0443f3d8e5dc9e766833f416530102")
    version("3.0.13", sha256="0c342f0ce5a2a468f13889067c86d788979186d439ee43172eea2c526df5eee4")
    with default_args(deprecated=True):
        version("1.1.1w", sha256="08cffd5462df5c932f7d5f41c64487803fede1a2b16f1add664569af19c1686c")

    variant("certs", default="mozilla", values=("mozilla", "system", "none"), multi=False, description="Certificates")
    variant("shared", default=True, description="Shared library")

    depends_on("c", type="build")
    depends_on("perl@5.14:", type=("build", "test"))
    depends_on("zlib-api")
