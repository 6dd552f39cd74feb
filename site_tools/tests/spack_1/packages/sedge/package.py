# In the style of Spack 1.0; written for the tests of site_tools.
from spack_repo.wetland.build_systems.cmake import CMakePackage, generator

from spack.package import *


class Sedge(CMakePackage):
    sizes = ("small", "large")

    version("3.1", sha256="0")

    variant("shared", default=True, description="Shared libraries")
    variant("size", default="small", values=sizes, description="Size")

    with default_args(when="+shared"):
        depends_on("tule")
    with when("size=large"), default_args(type="link", when="@3:"):
        depends_on("tule+deep")
