# A recipe in the style of Spack's own, cut down for an example; written by hand, its checksums are made up.
from spack.package import *


class Perl(Package):
    """A language for texts."""

    version("5.38.0", sha256="cc701a3e732c151488572951a7abf6cc265810dc0328d2d5a12cbfa6db59f9a8")
    version("5.36.0", sha256="d57cfe1418b88bbe526bf0244cd6c6824f56a7d81c418340e4a00ad5f129693f")

    variant("threads", default=True, description="With threads")

    depends_on("c", type="build")
    depends_on("bzip2+shared")
    depends_on("zlib-api")
