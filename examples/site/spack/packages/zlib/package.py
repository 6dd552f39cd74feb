# A recipe in the style of Spack's own, cut down for an example; written by hand, its checksums are made up.
from spack.package import *


class Zlib(MakefilePackage, Package):
    """Compression, as every machine has it."""

    homepage = "https://zlib.net"
    url = "https://zlib.net/fossils/zlib-1.2.11.tar.gz"

    version("1.3.1", sha256="7841968c42fecab7372082241ffb5d8882554ba74a4123cc26b4e307b8540c3d")
    version("1.3", sha256="99e0442e1673eebc493b320b5fd005cf4d8d64c1091874e49b53438f17f8f178")
    version("1.2.13", sha256="dca33fd81beab29f3334ef7c7ef8734a6f4e5bdb5bcf5ff93b14026a500bf46a")
    version("1.2.11", sha256="cfcaed75b97f5cafef602818ffb5c62befddc96244272ddef660568d7c7f2cf4", deprecated=True)

    build_system("makefile", conditional("generic", when="platform=windows"), default="makefile")

    variant("optimize", default=True, description="With -O2")
    variant("pic", default=True, description="Position independent code")
    variant("shared", default=True, description="Shared library")

    depends_on("c", type="build")

    conflicts("+shared~pic")

    provides("zlib-api")

    patch("w_patch.patch", when="@1.2.11%cce")
