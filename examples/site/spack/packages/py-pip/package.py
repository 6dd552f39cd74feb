# A recipe in the style of Spack's own, cut down for an example; written by hand, its checksums are made up.
from spack.package import *


class PyPip(Package):
    """Installs packages of Python."""

    version("24.0", sha256="bc590c4e5afbd8d8b9294b291355af97c4ed8601d1d47eb8e556647c247c8706")
    version("23.1.2", sha256="38b6dab882520c36eafafb2777fd33d5f094c67e710c0b92afbafa1daa97860a")

    extends("python")
    depends_on("python@3.7:", type=("build", "run"))
