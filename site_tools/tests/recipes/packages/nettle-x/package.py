# In the style of Spack's own recipes; written for the tests of site_tools.
from spack.package import *


class NettleX(Package):
    """An implementation of several interfaces."""

    url = "https://nettle.example.org/nettle-x-9.tar.gz"

    version("9.1", sha256="50599cec0e88965e0f4e6d88e490ebc3bf1a8ef45b2f61f51d48137c10263741")
    version("8.0", sha256="6ac5ffec4704dba6274fc09022952eeb4e438dab849ccbf472fd154b6fbeae3f")

    variant("fortran", default=True, description="Fortran bindings")

    provides("mpi@:4", when="@9:")
    provides("mpi@:3.1", when="@8")
    with when("+fortran"):
        provides("mpi-fortran", "mpi-f90@2:3")
    provides("sting-api")
