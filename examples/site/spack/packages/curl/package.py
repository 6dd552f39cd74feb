# A recipe in the style of Spack's own, cut down for an example; written by hand, its checksums are made up.
from spack.package import *


class Curl(AutotoolsPackage):
    """Gets files by many protocols."""

    version("8.7.1", sha256="e739556a1f9b04e3f6ae6ca8f75d88d9c0d8e0514fa6e9dadefd4425dc848d2d")
    version("8.6.0", sha256="c31448be5acc51aad2935f122dbb67e7fa809e45f46fbb7862680558ecb5ed49")
    version("7.88.1", sha256="cdac30ad743a92265dc66563bcd6e23fd8f88ac796c1424d64ae9087cf3d5244", deprecated=True)

    variant(
        "tls",
        default="openssl",
        values=("openssl", conditional("mbedtls", when="@7.46:")),
        multi=True,
        description="TLS libraries",
    )
    variant("nghttp2", default=False, when="@8:", description="HTTP 2")

    depends_on("c", type="build")
    depends_on("openssl", when="tls=openssl")
    depends_on("zlib-api")
    depends_on("pkgconfig", type="build")

    conflicts("tls=mbedtls", msg="there is no mbedtls in this repository")
