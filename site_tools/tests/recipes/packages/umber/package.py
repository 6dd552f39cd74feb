# In the style of Spack's own recipes; written for the tests of site_tools.
import os
import sys

from spack.package import *

IS_WINDOWS = sys.platform == "win32"


class Umber(Package):
    """Conditions of Python, on the platform and on what only a run can tell."""

    version("1.1", sha256="52600061395dc2a2958b9f2a09cb6ee86983c64207108a70115e31b3c9d09e54")

    if sys.platform != "darwin":
        depends_on("acorn")
    else:
        depends_on("cedar")

    variant("shared", default=not IS_WINDOWS, description="Shared libraries")
    depends_on("dunes", when=IS_WINDOWS)
    depends_on("basalt", when=not IS_WINDOWS)

    if os.path.exists("/etc/umber"):
        depends_on("onyx")
        variant("site", default=True, description="Only at some sites")
    else:
        conflicts("%gcc@:8")

    conflicts("%clang", when="@1.1" if IS_WINDOWS else "@1.0")
