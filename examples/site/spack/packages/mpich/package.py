# A recipe in the style of Spack's own, cut down for an example; written by hand, its checksums are made up.
from spack.package import *


class Mpich(AutotoolsPackage):
    """Another implementation of MPI."""

    version("4.2.1", sha256="c1f4585df565eb53a1d5d8bd5ed1a237374aa4f73854cd2a28aaf788bb80cc94")
    version("4.1.2", sha256="e81464bd266aa0f5902507ca5e6dc2f69439aea77c3a9179db710fb124a5a7de")
    version("3.4.3", sha256="deead8b856095f93bbdd5c866e15653bd4d27fe9841bbc4884625b3ce1782977")

    variant("device", default="ch4", values=("ch3", "ch4"), multi=False, description="Device")
    variant("hwloc", default=True, description="With hwloc")
    variant("fortran", default=True, description="With Fortran")

    provides("mpi@:4.0")
    provides("mpi@:3.1", when="@:3.2")

    depends_on("c", type="build")
    depends_on("hwloc@2:", when="@3.3: +hwloc")
    depends_on("pkgconfig", type="build")

    conflicts("device=ch3", when="@4.2:")
    conflicts("%gcc@:7", when="@4:")
