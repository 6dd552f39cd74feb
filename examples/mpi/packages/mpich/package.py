class Mpich(Package):
    """MPICH, an implementation of MPI."""

    version("4.1.2")
    version("3.4.3")

    variant("device", default="ch4", values=("ch3", "ch4"), multi=False)

    provides("mpi@:4.0")
    provides("mpi@:3.1", when="@:3")
