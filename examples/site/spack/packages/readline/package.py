# A recipe in the style of Spack's own, cut down for an example; written by hand, its checksums are made up.
from spack.package import *


class Readline(AutotoolsPackage, GNUMirrorPackage):
    """Lines that can be edited."""

    version("8.2", sha256="91f3bea8bc8cbae0fcf9f83e5965f2092279f4578101687648ed8a10b949dda3")
    version("8.1", sha256="0ba4eebee2f51a8452073f0e1c32b73900a26b2711363fde2e17211f0930b2f3")

    depends_on("c", type="build")
    depends_on("ncurses")
