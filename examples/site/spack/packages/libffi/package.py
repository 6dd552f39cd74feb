# A recipe in the style of Spack's own, cut down for an example; written by hand, its checksums are made up.
from spack.package import *


class Libffi(AutotoolsPackage):
    """Calls of functions that are known at run time alone."""

    version("3.4.6", sha256="9ce5ac6a61fe376ee2794bcaa487c888d047919fe271efe69a8a88d20d61eedc")
    version("3.4.4", sha256="02f21d29743345a4614816149bcd18a622fccfa60444166ac6525c5eb46cddc0")

    depends_on("c", type="build")
