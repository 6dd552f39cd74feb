# In the style of Spack's own recipes; written for the tests of site_tools.
from spack.package import *


def add_parts(count):
    for place in range(count):
        depends_on(f"part{place}")


class Vetch(Package):
    """Statements that are not followed."""

    version("1.1", sha256="5b72f93d7b38d9a5a9d3c9512c596ef24f88e12f7e47f2dbce55b86528138b7e")

    try:
        depends_on("acorn")
    except ImportError:
        pass

    count = 3
    while count > 0:
        conflicts(f"@0.{count}")
        count -= 1

    add_parts(3)
    depends_on("cedar")

    for name in open("/etc/hosts"):
        depends_on(name)

    for each in ("a", "b"):
        if each == "b":
            break
        depends_on("dunes", when=f"@{each}")
