# In the style of Spack's own recipes; written for the tests of site_tools.
from mylib import helper, conflicts

from spack.package import *

grown = ["a"]
grown.append("b")
steady = ["c"]
fixed = ("g", "h")
hidden = ["i"]


def grow():
    global steady
    steady = []


def grow_hidden():
    hidden.append("j")


names = ["before"]


class Ivy(Package):
    """Lists that change on the way."""

    version("1.0", sha256="f26ff1612d2d7ca54e7cf997f79a610acb1c791762049ab9c0e0296d14a926ec")

    for name in names:
        depends_on("pine", when=f"+{name}")
    for name in grown:
        depends_on("acorn", when=f"+{name}")
    for name in steady:
        depends_on("cedar", when=f"+{name}")
    own = ["d"]
    own += ["e"]
    for name in own:
        variant(name, default=False, description=name)
    own[0] = "f"
    for name in own:
        depends_on("dunes", when=f"+{name}")
    depends_on("dunes", when=version.later)
    conflicts("+d")
    for name in {"x", "y"}:
        depends_on("basalt", when=f"+{name}")
    depends_on("kelp", when="+" + list({"x", "y"})[0])
    for name in hidden:
        depends_on("larch", when=f"+{name}")
    grow_hidden()
    for name in hidden:
        depends_on("maple", when=f"+{name}")
    for name in fixed:
        depends_on("quartz", when=f"+{name}")
    depends_on((late := "birch"), when=later)
    depends_on(late)


names = ["after"]
