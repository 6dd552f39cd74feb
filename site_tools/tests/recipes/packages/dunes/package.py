# In the style of Spack's own recipes; written for the tests of site_tools.
from spack.package import *


class Dunes(MesonPackage):
    """A text layout engine, built by Meson."""

    url = "https://dunes.example.org/dunes-0.9.tar.xz"

    version("0.9", sha256="fb73d4cf44490bd598e08ba26ede53f419bbc01145a5392a4b03ec143ec95d73")
    version("0.8-rc2", sha256="e607574d75c21a5fd31c8441efaa416d84ed2314c9d0779f8b9b441eb8579468")

    variant("docs", default=False, description="Build the manual")

    depends_on("pkgconfig", type="build")
    depends_on("acorn@1.4:", type=("build", "link"))
    depends_on("py-ember", type=("build", "run"), when="+docs")
    depends_on("meson@1.1:", type="build")

    def meson_args(self):
        return ["-Ddocs=" + ("true" if "+docs" in self.spec else "false")]
