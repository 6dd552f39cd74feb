# A recipe in the style of Spack's own, cut down for an example; written by hand, its checksums are made up.
from spack.package import *


class Lz4(MakefilePackage):
    """Very fast compression."""

    version("1.9.4", sha256="f3c2d7763e179d0dae310f232e8b2a36aec0fd6b72e762eba7de961f8b219380")
    version("1.9.3", sha256="75b527a3627145f484de3af4bf27a5e100a3eb437f72b52a52c19e1062698576")

    variant("libs", default=("shared", "static"), values=("shared", "static"), multi=True, description="Which libraries")

    depends_on("c", type="build")
