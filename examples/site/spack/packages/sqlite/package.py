# A recipe in the style of Spack's own, cut down for an example; written by hand, its checksums are made up.
from spack.package import *


class Sqlite(AutotoolsPackage):
    """A database in a file."""

    version("3.45.3", sha256="9465a5d24ef58c0b404b47a2aaca91f6dc5237b39be39df1518c536a603ee44c")
    version("3.44.2", sha256="ea38c200c7dc31c8300cb61dc6a6c45128b9861b3d1084c8006c19814bdd4128")

    variant("functions", default=False, description="Mathematical functions")
    variant("rtree", default=True, description="R trees")

    depends_on("c", type="build")
    depends_on("readline")
    depends_on("zlib-api")
