# A recipe in the style of Spack's own, cut down for an example; written by hand, its checksums are made up.
from spack.package import *


class Fftw(AutotoolsPackage):
    """Fourier transforms."""

    version("3.3.10", sha256="8c14cacf8ff504185d87b5a808204705153180c4d12d3f18fb06fecd8eb04f24")
    version("3.3.9", sha256="c34b91b22eedf5ae3be5e4532a30d235e0e7e1ac6e902d39f48bbc310ffeb55d")

    variant("mpi", default=True, description="With MPI")
    variant("openmp", default=False, description="With OpenMP")
    variant(
        "precision",
        default=("float", "double"),
        values=("float", "double", "long_double", "quad"),
        multi=True,
        description="Precisions",
    )

    provides("fftw-api@3")

    depends_on("c", type="build")
    depends_on("mpi", when="+mpi")

    conflicts("precision=quad", when="%clang")
