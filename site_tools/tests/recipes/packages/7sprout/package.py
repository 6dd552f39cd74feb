# In the style of Spack's own recipes; written for the tests of site_tools.
from spack.package import *


class _7sprout(Package):
    """A name that begins with a digit."""

    version("22.1", sha256="ac7247e35e60add7807839fede4edc30f94301c4a7aeb48c578552ea9ce2fb93")

    depends_on("acorn", type="link")
