# A recipe in the style of Spack's own, cut down for an example; written by hand, its checksums are made up.
from spack.package import *


class Zstd(CMakePackage, MakefilePackage):
    """Fast compression."""

    version("1.5.6", sha256="237becf117a30ce5219e0ff634a37b706f9374f968b7c7993e5a00cd4c029e7c")
    version("1.5.5", sha256="0aa453e00a47cd7a5ad4da867f07bdeb79091d91a2738ff206ffbd7b5ce13188")

    variant("programs", default=False, description="The command")
    variant(
        "compression",
        when="+programs",
        values=any_combination_of("zlib", "lz4", "lzma"),
        description="Other formats for the command",
    )
    variant("libs", default="shared,static", values=("shared", "static"), multi=True, description="Which libraries")

    build_system("cmake", "makefile", default="makefile")

    depends_on("c", type="build")
    depends_on("cxx", type="build")
    depends_on("zlib-api", when="compression=zlib")
    depends_on("lz4", when="compression=lz4")
    depends_on("xz", when="compression=lzma")
