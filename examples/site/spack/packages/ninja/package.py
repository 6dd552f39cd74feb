# A recipe in the style of Spack's own, cut down for an example; written by hand, its checksums are made up.
from spack.package import *


class Ninja(Package):
    """A small build system."""

    version("1.12.0", sha256="21cf6f01f5e5b849e28cf343479eeb9615b93e6e601022639d579d7d5ef59498")
    version("1.11.1", sha256="b41b0281f078381283c84128d3ded383cb4fbb24c2cd398810278868b53573e8")

    depends_on("cxx", type="build")
    depends_on("python", type="build")
