# In the style of Spack's own recipes; written for the tests of site_tools.
from spack.package import *


class Fir(Package):
    """Blocks in blocks."""

    version("3", sha256="2a0c0a28ca61369836b68c64c454eebc6fbee9e3029719b028832e52066500a7")
    version("2", sha256="af6c7297dc39946cc83135220b3fcd265b375d6ba36e2c9b474185b1c9bf643b")

    variant("a", default=True, description="A")
    variant("b", default=True, description="B")

    with when("@2:"):
        with when("+a"):
            depends_on("acorn")
            with when("^acorn@1.4: +shared"):
                depends_on("cedar", when="+b")
                conflicts("%gcc@:5")
                provides("fir-api")
            provides("fir-api@2", when="+b")
        with when("~a"), when("~b"):
            conflicts("@3")
        conflicts("~a", when="+b")
