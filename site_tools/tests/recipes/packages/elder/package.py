# In the style of Spack's own recipes; written for the tests of site_tools.
from spack.package import *

WITH_LEGACY = False
NAMES = ("acorn", "cedar")


class Elder(Package):
    """Conditions that always hold, and that never do."""

    version("1.0", sha256="b3d70fdd9913b3daee335a2842b8791456451f48d6fa20dc8aaf1dbc62ba92fc")
    version("0.9", sha256="0a08241113089ee373547c3be5dce357c28c9f57470b61f0fb6b661b6680f5e9")

    depends_on("acorn", when=True)
    depends_on("cedar", when=False)
    depends_on("dunes", when=None)
    depends_on("basalt", when="")
    with when(WITH_LEGACY):
        depends_on("onyx")
        conflicts("@0.9")
    with when("cedar" in NAMES):
        conflicts("@1.0", when=len(NAMES) > 2)
        conflicts("@0.9", "%gcc@13:", "old")
    if WITH_LEGACY or len(NAMES) == 3:
        conflicts("@0.9")
    elif NAMES[0].startswith("a"):
        depends_on("pine")
