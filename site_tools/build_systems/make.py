"""Missing: `gnuconfig`, which AutotoolsPackage asks for on some targets."""


class MakefilePackage(PackageBase):
    build_system("makefile")

    with when("build_system=makefile"):
        conflicts("platform=windows")
        depends_on("gmake", type="build")


class AutotoolsPackage(PackageBase):
    build_system("autotools")

    with when("build_system=autotools"):
        depends_on("gmake", type="build")
        conflicts("platform=windows")
