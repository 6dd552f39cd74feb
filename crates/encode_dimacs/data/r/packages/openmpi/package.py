class Openmpi(Package):
    version("4.1")
    provides("mpi")
