# A recipe in the style of Spack's own, cut down for an example; written by hand, its checksums are made up.
from spack.package import *


class Libevent(AutotoolsPackage):
    """Waits for many things at once."""

    version("2.1.12", sha256="db16cdb723164b29e668baa02358521d790025cc82d05737488bf7986e44a3f0")

    variant("openssl", default=True, description="With TLS")

    depends_on("c", type="build")
    depends_on("openssl", when="+openssl")
