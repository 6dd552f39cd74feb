"""As Spack's documentation has them; missing: `QMakePackage` where the repository has no `qmake`."""


class QMakePackage(PackageBase):
    build_system("qmake")

    depends_on("qmake", type="build", when="build_system=qmake")


class SConsPackage(PackageBase):
    build_system("scons")

    depends_on("scons", type="build", when="build_system=scons")


class WafPackage(PackageBase):
    build_system("waf")

    depends_on("python@2.5:", type="build", when="build_system=waf")
