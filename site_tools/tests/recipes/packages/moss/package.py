# In the style of Spack's own recipes; written for the tests of site_tools.
from spack.package import *


class Moss(Package):
    """Conditions on the machine."""

    version("1.0", sha256="f3c00a5b2d3476a3f128c3db219ffcaedbb422868c8841cf92185d63b50f633f")

    conflicts("platform=darwin", when="target=aarch64:")
    conflicts("target=ppc64le:", msg="not on POWER")
    conflicts("target=x86_64_v2:x86_64_v4,zen2")
    conflicts("os=centos6")
    depends_on("acorn target=x86_64:", when="platform=linux os=rhel8")
    conflicts("platform=linux,darwin")
    requires("target=:broadwell", when="@1.0")
