# In the style of Spack's own recipes; written for the tests of site_tools.
from spack.package import *


class Kudzu(Package):
    """It claims to be another package."""

    version("1.0", sha256="4916f59e3401991dde734f89f47db89b29f04c365745f6a20aa09849e6102cba")

    provides("acorn@1.4")
    provides("kudzu-api")
    provides("+kudzu-api")
    provides("other-api+x")
