# In the style of Spack 1.0; written for the tests of site_tools.
from ..sedge.package import Sedge
from ..nowhere.package import Nowhere

from spack_repo.wetland.build_systems.autotools import AutotoolsPackage

from spack.package import *


class Tule(AutotoolsPackage, Nowhere):
    version("1.0", sha256="0")

    variant("deep", default=False, description="Deep water", when=f"@{len(Sedge.sizes)}:")
