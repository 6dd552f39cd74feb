# Written by site_tools/import_repo from packages/py-h5py/package.py.
class PyH5py(Package):
    variant("build_system", default="python_pip", values=("python_pip",))
    with when("build_system=python_pip"):
        depends_on("python", type=("build", "run"))
        depends_on("py-pip", type="build")
        depends_on("py-wheel", type="build")
    version("3.11.0")
    version("3.8.0")
    variant("mpi", default=True)
    depends_on("py-setuptools@61:", type="build")
    depends_on("py-cython@0.29.31:3", type="build")
    depends_on("pkgconfig", type="build")
    depends_on("py-numpy@1.17.3:", type=("build", "run"))
    depends_on("hdf5@1.10.4: +hl")
    with when("+mpi"):
        depends_on("hdf5 +mpi")
        depends_on("mpi")
    depends_on("hdf5 ~mpi", when="~mpi")
