# A recipe in the style of Spack's own, cut down for an example; written by hand, its checksums are made up.
from spack.package import *


class Xz(AutotoolsPackage):
    """Compression of high ratio."""

    version("5.4.6", sha256="a4f3be36436c00f7322e1cce77414dd329bb5ab9dac0ca02a6fb0cc4282ec781")
    version("5.4.1", sha256="965a20f1295890ae0798bb7d44f06f46674fbb5215a51a214b5887d10c9c9144")

    variant("pic", default=False, description="Position independent code")
    variant("libs", default="shared,static", values=("shared", "static"), multi=True, description="Which libraries")

    depends_on("c", type="build")
