# A recipe in the style of Spack's own, cut down for an example; written by hand, its checksums are made up.
from spack.package import *


class NetcdfC(AutotoolsPackage):
    """Arrays with names in files."""

    version("4.9.2", sha256="35a7129c85b4e0e44765a89c64eca60362009b854c6010f469deb2f6948a825c")
    version("4.8.1", sha256="00dd7144f158d114b73ef8f6deb0a97da4c1e02066f6f22163d86e65661b3c5b")

    variant("mpi", default=True, description="Parallel files")
    variant("szip", default=False, when="@4.9:", description="More compression")

    depends_on("c", type="build")
    depends_on("bzip2", when="@4.9:")
    depends_on("curl@7.18:")
    depends_on("zstd", when="@4.9:")

    with when("+mpi"):
        depends_on("mpi")
        depends_on("hdf5+hl+mpi")
    with when("~mpi"):
        depends_on("hdf5+hl~mpi")

    depends_on("hdf5@1.8.9:")
    conflicts("+szip")
