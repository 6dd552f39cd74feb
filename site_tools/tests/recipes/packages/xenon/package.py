# In the style of Spack's own recipes; written for the tests of site_tools.
from spack.package import *


class Xenon(Package):
    """Versions of all sorts."""

    git = "https://xenon.example.org/xenon.git"

    version("develop", branch="develop", submodules=True)
    version("3.2-rc1", tag="v3.2-rc1")
    version("3.1", sha256="7cdb0a39b3d27eefb62f0466dd9eaf78cd03f27bc5be63b743465d5289c8cce6", preferred=True)
    version("3.1", sha256="d07d64b5c608e4c1fabc140fc4f398a6a2f78e8af2c94f200554cbf59f317502")
    version("3.0", "f72508d59ccd12d68a3e72ec35b22cacecaf092a77e5271075318eda375f6d93", deprecated=True)
    version("2020.04.01", commit="0123456789abcdef0123456789abcdef01234567")
    version("git.main=3.3")
    version("1.0+local", sha256="bd71745bba093d77e0476cae5202530f7d678a5f2175f70f292edde11d410ea5")

    with default_args(deprecated=True):
        version("2.9", sha256="baa44267062443f20ea743f0bef6e7d2f69fae6878c2c1f0ba534ee2c63b2aad")
        version("2.8", sha256="f4eaac88687c1fa7a7cd4fcabb64ca486a508776ad166e2c3465a91141a20477", deprecated=False)

    with when("@3:"):
        version("3.9", sha256="0009a53002177f5e500148e26e2d8e8f3e54cb27b40f6c03548c4fdf0ed9f119")

    depends_on("acorn@git.1234=1.4", when="@develop")
    depends_on("cedar@0123456789abcdef0123456789abcdef01234567")
    depends_on("dunes@2:1")
    depends_on("dunes@=0.9", when="@=3.1")
