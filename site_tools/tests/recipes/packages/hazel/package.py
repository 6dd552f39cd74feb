# In the style of Spack's own recipes; written for the tests of site_tools.
from spack.package import *


class HazelNut(Package):
    """The class has another name than the package."""

    version("1.0", sha256="3bc6b04f7321ff5e8a50c9b04edbc858830225ea3e447c2d2f9f3e4b35ccbbd2")
