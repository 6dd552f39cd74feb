"""A repository of Spack 1.0 has its base classes with it; this one has a variant of its own."""
import sys

import spack.package_base
from spack.package import *


def generator(*names, default=None):
    """Spack's own file defines its directive so; it is known, and not run."""
    variant("generator", default=default or names[0], values=lambda x: x in ("make", "ninja"))


class CMakePackage(spack.package_base.PackageBase):
    build_system_class = "CMakePackage"
    default_buildsystem = "cmake"

    build_system("cmake")

    with when("build_system=cmake"):
        variant("unity", default=False, description="Unity builds")
        if sys.platform == "win32":
            generator("ninja")
        else:
            generator("ninja", "make", default="make")
        depends_on("cmake", type="build")
        depends_on("ninja", type="build", when="generator=ninja")
