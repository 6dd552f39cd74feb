# A recipe in the style of Spack's own, cut down for an example; written by hand, its checksums are made up.
from spack.package import *


class Openmpi(AutotoolsPackage):
    """An implementation of MPI."""

    version("5.0.3", sha256="0bdc69f21ab3f9115885247373bccf168634409da482644357a6eb8066f5f9cf")
    version("4.1.6", sha256="566097c55a6472ab87b531660a179139d7ef692a64b6f5da12cd4e4ca2e30624", preferred=True)
    version("4.0.7", sha256="84a4532b71f087d81baa5d1072b32ed0a3a904c1f2df119ebeef721ba6d1291b")

    variant(
        "fabrics",
        values=disjoint_sets(("auto",), ("ofi", "ucx", "verbs")).with_non_feature_values("auto", "none"),
        description="Fabrics",
    )
    variant("cxx", default=False, when="@:4", description="C++ bindings")
    variant("static", default=False, description="Static libraries")

    provides("mpi")
    provides("mpi@:3.1", when="@2:")

    depends_on("c", type="build")
    depends_on("fortran", type="build")
    depends_on("hwloc@2:", when="@4:")
    depends_on("libevent")
    depends_on("perl", type="build")
    depends_on("pkgconfig", type="build")
    depends_on("zlib-api")

    conflicts("fabrics=ofi")
    conflicts("fabrics=ucx")
    conflicts("fabrics=verbs", when="@5:")
