# Written by site_tools/import_repo from packages/yarrow/package.py, with parts left out (see the report).
class Yarrow(Package):
    variant("build_system", default="generic", values=("generic",))
    version("5")
    variant("languages", default="c", values=("c", "c++"), multi=True)
    depends_on("acorn@1.3,1.4.1:")
    depends_on("cedar@4.0 +cxx")
    depends_on("cedar codecs=lz4,zstd", when="languages=c,c++")
    depends_on("basalt ~mpi", when="~nothing")
    depends_on("dunes@:0.8,0.9")
    conflicts("yarrow@5", when="platform=linux os=rhel7 target=x86_64")
