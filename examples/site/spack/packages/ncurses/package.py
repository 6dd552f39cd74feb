# A recipe in the style of Spack's own, cut down for an example; written by hand, its checksums are made up.
from spack.package import *


class Ncurses(AutotoolsPackage, GNUMirrorPackage):
    """Texts on terminals."""

    version("6.5", sha256="3541e1067692dd11a351a0334e068659ddf564b616d73bca0243a587d36fb08a")
    version("6.4", sha256="3059e00bf6468764c100833e7a2d11e77d7c1063053906e8298458aaa6011f55")

    variant("symlinks", default=False, description="Links")
    variant("termlib", default=True, description="A library of its own for termcap")
    variant("abi", default="none", description="The ABI", values=("5", "6", "none"), multi=False)

    depends_on("c", type="build")
    depends_on("pkgconfig", type="build")
