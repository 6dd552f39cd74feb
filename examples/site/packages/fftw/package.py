# Written by site_tools/import_repo from packages/fftw/package.py.
class Fftw(Package):
    variant("build_system", default="autotools", values=("autotools",))
    with when("build_system=autotools"):
        depends_on("gmake", type="build")
        conflicts("platform=windows")
    version("3.3.10")
    version("3.3.9")
    variant("mpi", default=True)
    variant("openmp", default=False)
    variant("precision", default=("float", "double"), values=("float", "double", "long_double", "quad"), multi=True)
    provides("fftw-api@3")
    depends_on("c", type="build")
    depends_on("mpi", when="+mpi")
    conflicts("precision=quad", when="%clang")
