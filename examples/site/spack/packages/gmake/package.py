# A recipe in the style of Spack's own, cut down for an example; written by hand, its checksums are made up.
from spack.package import *


class Gmake(Package, GNUMirrorPackage):
    """Makes what is out of date."""

    version("4.4.1", sha256="10f33af47167667ec446d0fef277528a0f61585d69dccf92e238c327149beebb")
    version("4.3", sha256="6ebb9b6367dc0809945daa79aeff048717a46a632604f21223ef73162e7c9b22")

    variant("guile", default=False, description="With Guile")

    depends_on("c", type="build")
    conflicts("+guile", msg="there is no Guile in this repository")
