class Mpich(Package):
    version("3.2")
    provides("mpi")
