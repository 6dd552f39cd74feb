# A recipe in the style of Spack's own, cut down for an example; written by hand, its checksums are made up.
from spack.package import *


class Hwloc(AutotoolsPackage, CudaPackage):
    """What a machine consists of."""

    version("2.9.3", sha256="52bdd3f072ca87c574a99f76b9380d78cb11834dd6cd482c4ce06a7581a9d930")
    version("2.9.1", sha256="3d4393785c3b153ef61536ec5ed1472560dcde393c0ab65fe7ab089c279a3e87")

    variant("libxml2", default=False, description="Reads XML by libxml2")
    variant("pci", default=False, description="With the bus")

    depends_on("c", type="build")
    depends_on("pkgconfig", type="build")
    depends_on("ncurses")

    conflicts("+libxml2", msg="there is no libxml2 in this repository")
    conflicts("+pci", msg="there is no libpciaccess in this repository")
