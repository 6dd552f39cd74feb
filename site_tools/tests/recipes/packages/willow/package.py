# In the style of Spack's own recipes; written for the tests of site_tools.
from wood.base import MakefilePackage

from spack.package import *
from spack.build_systems.wood import WoodPackage
from woods import *


class Willow(WoodPackage, MakefilePackage):
    """Its base classes are not known: one of them has only the name of one of Spack's."""

    version("1.1", sha256="28103a037638153dffb40fab154b8661633697d57105f64d26cd41b39db99e2d")

    depends_on("acorn")
