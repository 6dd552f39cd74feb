# A recipe in the style of Spack's own, cut down for an example; written by hand, its checksums are made up.
from spack.package import *


class ZlibNg(CMakePackage):
    """The next generation of zlib."""

    url = "https://example.org/zlib-ng-2.1.6.tar.gz"

    version("2.1.6", sha256="1e45bef2974b53337a687ec876d02ed997c71eeb5e5a8c6b88f5cf761a4e873b")
    version("2.1.5", sha256="a5b54ca346cca76a152304ce0a4c6ec519c73b51e4c9df42ff50e25f38558dd5")
    version("2.0.7", sha256="08251096897fe6e65cdff6a0aef952136ab5354a16abf2b3a04d7fa7602bb8ea")

    variant("compat", default=True, description="As zlib has it")
    variant("opt", default=True, description="Optimized for the machine")
    variant("shared", default=True, description="Shared library")

    provides("zlib-api", when="+compat")

    depends_on("c", type="build")
    depends_on("cmake@3.5.1:", type="build")

    conflicts("%gcc@:4")
