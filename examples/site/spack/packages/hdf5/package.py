# A recipe in the style of Spack's own, cut down for an example; written by hand, its checksums are made up.
from spack.package import *


class Hdf5(CMakePackage):
    """Large data in files."""

    homepage = "https://www.hdfgroup.org"

    version("1.14.3", sha256="b99ed84f656083bca17e8e40c4a4d9449ec870e4265161a71869d8db17162f39")
    version("1.12.3", sha256="56b102990f4e97e4eaf329a89d30f015c249f22f3758ab281780e9a7c69a1a46")
    version("1.10.11", sha256="f65fa5ac3d69b441233aa3da7be48f7cac121d5f48f428ea2e35cf935ef026c1")

    variant("shared", default=True, description="Shared library")
    variant("hl", default=False, description="High level library")
    variant("fortran", default=False, description="Fortran")
    variant("mpi", default=True, description="Parallel files")
    variant("threadsafe", default=False, description="Thread-safe")
    variant(
        "api",
        default="default",
        values=("default", conditional("v114", when="@1.14:"), conditional("v112", when="@1.12:"), "v110"),
        multi=False,
        description="API",
    )

    depends_on("c", type="build")
    depends_on("fortran", type="build", when="+fortran")
    depends_on("cmake@3.12:", type="build")
    depends_on("cmake@3.18:", type="build", when="@1.13:")
    depends_on("zlib-api")
    with when("+mpi"):
        depends_on("mpi")
        conflicts("+threadsafe", when="+hl")

    conflicts("+threadsafe", when="+fortran")
