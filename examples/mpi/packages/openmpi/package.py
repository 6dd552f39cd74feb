class Openmpi(Package):
    """Open MPI, an implementation of MPI."""

    version("4.1.5")

    provides("mpi@:3.1")
