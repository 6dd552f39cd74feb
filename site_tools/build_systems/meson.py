"""As Spack's documentation has it; missing: limits of Python's versions for some versions of Meson."""


class MesonPackage(PackageBase):
    build_system("meson")

    with when("build_system=meson"):
        variant("buildtype", default="release", values=("plain", "debug", "debugoptimized", "release", "minsize"))
        variant("default_library", default="shared", values=("shared", "static"), multi=True)
        variant("strip", default=False)
        depends_on("meson", type="build")
        depends_on("ninja", type="build")
