class App(Package):
    version("1.0")
    depends_on("mpi")
    depends_on("tool", type="build")
    depends_on("zlib", when="^openmpi")
