# In the style of Spack's own recipes; written for the tests of site_tools.
from spack.package import *


class Rowan(CMakePackage):
    """It asks that variants go on to what it depends on."""

    version("1.0", sha256="ce1c3b0ba734f3c2cd8403ebbb9e2400aae932d92a86d2a04df6b1495a45f4ca")

    variant("shared", default=True, description="Shared libraries")

    depends_on("acorn")
    depends_on("cedar++cxx", when="+shared")
    depends_on("basalt cxxstd==17")
    depends_on("dunes ~~docs")
    conflicts("--shared", when="@1.0")
    requires("^acorn+shared", when="+shared")
