# A recipe in the style of Spack's own, cut down for an example; written by hand, its checksums are made up.
from spack.package import *


class PySetuptools(Package):
    """Builds packages of Python."""

    version("69.5.1", sha256="9702f239123699681d929a6acb5d9ca22d6587e64f1d4546c75b478101ee5b35")
    version("63.4.3", sha256="c08e3c83d042c2de4117a3a06f140eb69997c2782e9b3344b302c60c84ea7074")
    version("59.4.0", sha256="0d2d2637aeffcd8d1f6d1e866377c08283e265bdf7ac8d02d9bf42312904bf05")

    extends("python")
    depends_on("python@:3.11", type=("build", "run"), when="@:65")
