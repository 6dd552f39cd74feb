# Written by site_tools/import_repo from packages/dunes/package.py.
class Dunes(Package):
    variant("build_system", default="meson", values=("meson",))
    with when("build_system=meson"):
        variant("buildtype", default="release", values=("plain", "debug", "debugoptimized", "release", "minsize"))
        variant("default_library", default="shared", values=("shared", "static"), multi=True)
        variant("strip", default=False)
        depends_on("meson", type="build")
        depends_on("ninja", type="build")
    version("0.9")
    version("0.8-rc2")
    variant("docs", default=False)
    depends_on("pkgconfig", type="build")
    depends_on("acorn@1.4:")
    depends_on("py-ember", type=("build", "run"), when="+docs")
    depends_on("meson@1.1:", type="build")
