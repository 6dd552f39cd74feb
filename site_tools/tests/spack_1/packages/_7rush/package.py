# In the style of Spack 1.0; written for the tests of site_tools.
from spack_repo.wetland.packages.sedge.package import Sedge

from spack.package import *


class _7rush(Sedge):
    """A name that begins with a digit; it has all that sedge has."""

    version("1.0", sha256="0")

    for size in Sedge.sizes:
        conflicts(f"size={size}", when="@1.0 ~shared")
