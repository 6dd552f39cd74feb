# A recipe in the style of Spack's own, cut down for an example; written by hand, its checksums are made up.
from spack.package import *


class Libiconv(AutotoolsPackage, GNUMirrorPackage):
    """Converts text from one encoding to another."""

    version("1.17", sha256="ba9364e041500a041ce0f5799996f2405e9af867ccb41a02d3b5e2df6f3981fa")

    variant("libs", default="shared,static", values=("shared", "static"), multi=True, description="Which libraries")

    depends_on("c", type="build")
    provides("iconv")
