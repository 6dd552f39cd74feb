# A recipe in the style of Spack's own, cut down for an example; written by hand, its checksums are made up.
from spack.package import *


class PyH5py(PythonPackage):
    """HDF5 in Python."""

    version("3.11.0", sha256="2b77de794e0d85d5a868645eff2d6ca9e671f053cd71bedea89977d77f248d61")
    version("3.8.0", sha256="b500cc4cfb45070842f8c0924fd991caadad0ba073c13b2330bb92f116e102fc")

    variant("mpi", default=True, description="Parallel files")

    depends_on("py-setuptools@61:", type="build")
    depends_on("py-cython@0.29.31:3", type="build")
    depends_on("pkgconfig", type="build")
    depends_on("py-numpy@1.17.3:", type=("build", "run"))
    depends_on("hdf5@1.10.4:+hl")

    with when("+mpi"):
        depends_on("hdf5+mpi")
        depends_on("mpi")
    depends_on("hdf5~mpi", when="~mpi")
