# In the style of Spack's own recipes; written for the tests of site_tools.
from spack.package import *


class Sorrel(Package):
    """Spec texts beyond the profile, each left out by itself."""

    version("2.0", sha256="5bbda5e5ba5c80894816c724868e0f58828061552ab82f04ab780f6b9a41ce6c")

    depends_on("acorn cflags='-O2 -g'")
    depends_on("acorn ldflags=-lm", when="@2:")
    depends_on("cedar/abcdef")
    depends_on("^acorn")
    depends_on("basalt ^mpi")
    conflicts("^[virtuals=mpi] nettle-x")
    conflicts("acorn=*")
    with when("%gcc cxxflags='-stdlib=libc++'"):
        depends_on("dunes")
        conflicts("+x")
    depends_on("cedar@4:")
