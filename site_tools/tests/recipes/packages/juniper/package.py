# In the style of Spack's own recipes; written for the tests of site_tools.
from spack.package import *


class Juniper(Package):
    """Dependencies of all kinds."""

    version("1.0", sha256="000f4481502e93a0cf042e8cafcd259a9d29ca0f7e01f52820a14f3f10f9d05c")

    depends_on("c", type="build")
    depends_on("cxx")
    depends_on("fortran", type="build", when="@1.0")
    depends_on("acorn", patches=[patch("acorn.patch", when="@1.4.1"), "b.patch"])
    depends_on("cedar", "@1.0", "run")
    depends_on("dunes", type=("build", "link", "run", "test"))
    depends_on("basalt", type=["test", "run"])
    depends_on("py-pytest@7:", type=("test",))
    depends_on("onyx", type="all")
    depends_on("onyx", type="link", optional=True)
    depends_on("tansy threads=64 mode=fast")
    extends("py-ember", when="@1.0")
    redistribute(source=False, when="@1.0")
    can_splice("juniper@0.9", when="@1.0")
