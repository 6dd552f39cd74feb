# A recipe in the style of Spack's own, cut down for an example; written by hand, its checksums are made up.
from spack.package import *


class NetlibLapack(CMakePackage):
    """Linear algebra, as it was first written."""

    version("3.12.0", sha256="d6517cf1175892e7faed3751935877a88cd5e7ec78222ca44112473b4f70b195")
    version("3.11.0", sha256="ff03cb9891396747602a3cc7136b1dfa4fc74ba752d5a373f1f1fd6483a8f7be")

    variant("shared", default=True, description="Shared library")
    variant("external-blas", default=False, description="Takes a BLAS from elsewhere")

    provides("lapack")
    provides("blas", when="~external-blas")

    depends_on("fortran", type="build")
    depends_on("blas", when="+external-blas")

    requires("^openblas", when="+external-blas")
