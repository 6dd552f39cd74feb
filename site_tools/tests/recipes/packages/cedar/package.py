# In the style of Spack's own recipes; written for the tests of site_tools.
from spack.package import *


class Cedar(AutotoolsPackage):
    """A file format with compression by plugins."""

    url = "https://cedar.example.org/cedar-4.0.tar.gz"

    version("4.0", sha256="07e9b6ffa398e7246f9dbf7b99131d955f73ff4549006652d8f714c361c91b91")
    version("3.11", sha256="abd6cce576fa659bb80f1ff79f7af0a902fd558a5572e82300cbcaa8c8c465c9")

    variant(
        "codecs",
        default=("deflate", "lz4"),
        values=("deflate", "lz4", "zstd", "bz2"),
        multi=True,
        description="Compression codecs",
    )
    variant("api", default="v4", values=("v3", "v4"), multi=False, description="Default API")
    variant("cxx", default=False, description="C++ bindings")

    depends_on("c", type="build")
    depends_on("cxx", type="build", when="+cxx")
    depends_on("acorn", when="codecs=deflate")
    depends_on("kelp", when="codecs=lz4,zstd")

    conflicts("api=v4", when="@:3", msg="version 3 has no API v4")

    filter_compiler_wrappers("cedarcc", relative_root="bin")

    def configure_args(self):
        args = ["--disable-silent-rules"]
        args.extend(self.enable_or_disable("codecs"))
        return args
