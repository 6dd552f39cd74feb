# In the style of Spack's own recipes; written for the tests of site_tools.
from spack.package import *


class Kelp(CMakePackage, CudaPackage):
    """Kernels for accelerators."""

    url = "https://kelp.example.org/kelp-3.0.tar.gz"

    version("3.0", sha256="39e042cc5e16d0af9154c044fba204066e0da7f42f290d70e0b01e0b14b7455a")

    variant("static", default=False, description="Static libraries")

    for arch in ("70", "80"):
        depends_on(f"basalt+mpi", when=f"+cuda cuda_arch={arch}")

    for arch in CudaPackage.cuda_arch_values:
        if int(arch.rstrip("a")) < 35:
            conflicts(f"cuda_arch={arch}", when="@3:")

    conflicts("~cuda", when="+static")
