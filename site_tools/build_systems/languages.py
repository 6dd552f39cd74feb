"""As Spack's documentation has them; missing: limits of versions between interpreters and their tools."""


class PythonExtension(PackageBase):
    pass


class PythonPackage(PythonExtension):
    build_system("python_pip")

    with when("build_system=python_pip"):
        extends("python")
        depends_on("py-pip", type="build")
        depends_on("py-wheel", type="build")


class PerlPackage(PackageBase):
    build_system("perl")

    extends("perl", when="build_system=perl")
    depends_on("gmake", type="build", when="build_system=perl")


class RPackage(Package):
    extends("r")


class RubyPackage(PackageBase):
    build_system("ruby")

    extends("ruby", when="build_system=ruby")


class GoPackage(PackageBase):
    build_system("go")

    with when("build_system=go"):
        depends_on("go", type="build")


class CargoPackage(PackageBase):
    build_system("cargo")

    with when("build_system=cargo"):
        depends_on("rust", type="build")
