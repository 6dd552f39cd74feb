# Written by site_tools/import_repo from packages/cedar/package.py.
class Cedar(Package):
    variant("build_system", default="autotools", values=("autotools",))
    with when("build_system=autotools"):
        depends_on("gmake", type="build")
        conflicts("platform=windows")
    version("4.0")
    version("3.11")
    variant("codecs", default=("deflate", "lz4"), values=("deflate", "lz4", "zstd", "bz2"), multi=True)
    variant("api", default="v4", values=("v3", "v4"))
    variant("cxx", default=False)
    depends_on("c", type="build")
    depends_on("cxx", type="build", when="+cxx")
    depends_on("acorn", when="codecs=deflate")
    depends_on("kelp", when="codecs=lz4,zstd")
    conflicts("api=v4", when="@:3")
