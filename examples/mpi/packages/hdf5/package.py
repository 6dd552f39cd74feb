class Hdf5(Package):
    """A data model, library and file format."""

    homepage = "https://www.hdfgroup.org/"

    version("1.14.3")
    version("1.12.2")
    version("1.10.7", deprecated=True)

    variant("mpi", default=True, description="Parallel input and output")
    variant("shared", default=True, description="Shared libraries")

    depends_on("cmake@3.18:", type="build")
    depends_on("zlib@1.2.5:")
    depends_on("mpi@3:", when="+mpi")

    conflicts("~shared", when="@1.14:", msg="Needs shared libraries")
