# In the style of Spack's own recipes; written for the tests of site_tools.
from spack.package import *


def is_power(value):
    return value.isdigit() and int(value) & (int(value) - 1) == 0


class Tansy(Package):
    """Variants with free values."""

    version("7.2", sha256="c07264428c51ab1172eb931bc927a99059473955128db13f45c0b249e66e87b3")

    variant("threads", default="64", values=is_power, description="Most threads")
    variant("precision", default="6", description="Digits", values=int, multi=False)
    variant("suffix", default="none", description="Any text at all")
    variant("arch", default="x", values=("x", "y"), description="A name with a meaning of its own")
    variant("mode", default="fast", values=("fast", "safe"), sticky=True, description="Never chosen by itself")
    variant("sets", default="a", values=("a", "b"), multi=True, validator=lambda *args: None, description="Tested")
    variant("odd", default="c", values=("a", "b"), description="A default that is none")
    variant("empty", default=(), values=("a", "b"), multi=True, description="No default")
    variant("flag", default="a=b", values=("a=b", "c"), description="A value with a sign")

    depends_on("acorn", when="threads=64")
