from spack.package import *


class PythonPackage(PackageBase):
    build_system("python_pip")
    extends("python", when="build_system=python_pip")
