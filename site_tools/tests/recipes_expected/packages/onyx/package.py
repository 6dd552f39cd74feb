# Written by site_tools/import_repo from packages/onyx/package.py.
class Onyx(Package):
    variant("build_system", default="generic", values=("generic",))
    version("1.1")
    version("1.0")
    variant("mpi", default=True)
    depends_on("mpi", when="+mpi")
    depends_on("cedar")
    requires("^nettle-x@9:", "^mistral@5:", when="+mpi")
    requires("%gcc", "%clang", "%oneapi", policy="any_of")
    requires("%gcc@9:", when="@1.1 %gcc")
    requires("^cedar codecs=zstd +cxx", when="@1.1")
