# In the style of Spack's own recipes; written for the tests of site_tools.
from spack.package import *


class Larch(MakefilePackage):
    """Some values of its variants came with later versions."""

    url = "https://larch.example.org/larch-2.5.tar.gz"

    version("2.5", sha256="bac303db65623daacb3b1bb81a690983d1acc430630fe845a1a5bec9f1f6c4db")
    version("2.4", sha256="75f2e32b8506da9d21a00e640e7b0adde5c3e1afd3044126ce6c3d78d75aa2c4")

    variant(
        "backend",
        default="plain",
        values=("plain", "tree", conditional("graph", "net", when="@2.5:"), conditional("old", when="@:2.4 +tools")),
        description="Backend",
    )
    variant("tools", default=False, description="Tools")
    variant("level", default="1", values=("1", "2", conditional("3", when=False)), when="+tools", description="Level")
