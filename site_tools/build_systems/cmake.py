"""As Spack's documentation has it; the generator is `make` or `ninja`."""


class CMakePackage(PackageBase):
    build_system("cmake")

    with when("build_system=cmake"):
        variant("build_type", default="Release", values=("Debug", "Release", "RelWithDebInfo", "MinSizeRel"))
        variant("ipo", default=False, when="^cmake@3.9:")
        generator("make", "ninja", default="make")
        depends_on("cmake", type="build")
        depends_on("gmake", type="build", when="generator=make")
        depends_on("ninja", type="build", when="generator=ninja")
