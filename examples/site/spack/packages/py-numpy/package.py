# A recipe in the style of Spack's own, cut down for an example; written by hand, its checksums are made up.
from spack.package import *


class PyNumpy(PythonPackage):
    """Arrays."""

    pypi = "numpy/numpy-1.26.4.tar.gz"

    version("1.26.4", sha256="be031d7859baa21800ec9110ec0e88e10c0980f8855851f51c116827267c2e3d")
    version("1.24.4", sha256="bcd1db58ef6d7c558a1039b9ab5869ff62bd01ae77ffde1cf5b6c7373f2b5e53")
    version("1.21.6", sha256="d7c41aced4f7c47c76ae60f9b0b0f8119db73f0b5a2bd47ddb6ee305644f5a7f")

    depends_on("c", type="build")
    depends_on("cxx", type="build")
    for old, pythons in {"1.26": "3.9:3.12", "1.24": "3.8:3.11", "1.21": "3.7:3.10"}.items():
        depends_on(f"python@{pythons}", type=("build", "link", "run"), when=f"@{old}")

    with default_args(type="build"):
        depends_on("py-cython@0.29.34:", when="@1.26:")
        depends_on("py-cython@0.29.24:2", when="@:1.25")
        depends_on("py-setuptools@:63", when="@:1.25")
        depends_on("meson", when="@1.26:")

    depends_on("blas")
    depends_on("lapack")

    conflicts("%gcc@:4.9", when="@1.21:")
