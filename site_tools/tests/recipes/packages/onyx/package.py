# In the style of Spack's own recipes; written for the tests of site_tools.
from spack.package import *


class Onyx(Package):
    """It needs one of some, and asks the compiler for much."""

    url = "https://onyx.example.org/onyx-1.tar.gz"

    version("1.1", sha256="e3400d5f91e68afff86005b90c4dbc993710487ae146a2b3ca5604cdc5bad273")
    version("1.0", sha256="63d1f0a3dcf3faa8acd53abb61e96efe4f1a16664e601f39270e7e0743a9bc14")

    variant("mpi", default=True, description="MPI")

    depends_on("mpi", when="+mpi")
    depends_on("cedar")

    requires("^nettle-x@9:", "^mistral@5:", policy="one_of", when="+mpi", msg="a newer MPI")
    requires("%gcc", "%clang", "%oneapi", policy="any_of")
    requires("%gcc@9:", when="@1.1 %gcc")
    requires("^cedar+cxx codecs=zstd", when="@1.1")
