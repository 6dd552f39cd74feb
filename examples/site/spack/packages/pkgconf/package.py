# A recipe in the style of Spack's own, cut down for an example; written by hand, its checksums are made up.
from spack.package import *


class Pkgconf(AutotoolsPackage):
    """Finds flags for libraries."""

    version("2.2.0", sha256="c657da45613b4dc3a593e25b5806d7c6c2b1c346781dd963f564a4f39aa9ba29")
    version("1.9.5", sha256="24dae5d25253953af2ad90c4e7fda1a6c5b681e7e8ce0c9cbf1f789f4642eece")

    provides("pkgconfig")

    depends_on("c", type="build")
