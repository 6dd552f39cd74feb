# In the style of Spack's own recipes; written for the tests of site_tools.
from spack.package import *


class Yarrow(Package):
    """Spellings of Spack that mean what the profile spells in another way."""

    version("5", sha256="f45632ad737672c76c3a828d96ecf43a267227da2b3a71ac6eaac7a82c99dd3c")

    variant("languages", default="c", values=("c", "c++"), multi=True, description="Languages")

    depends_on("builtin.acorn@1.3 , 1.4.1:")
    depends_on("  cedar   @ 4.0   + cxx  ")
    depends_on("cedar codecs='lz4,zstd'", when='languages="c,c++"')
    depends_on("basalt -mpi", when="-nothing")
    depends_on("dunes@:0.8,0.9")
    conflicts("yarrow@5", when="arch=linux-rhel7-x86_64")
    depends_on("local.acorn")
    conflicts("languages:=c")
    conflicts("languages=a~b")
    conflicts("arch=x86_64")
    depends_on("acorn@1.4 @1.3")
    depends_on("cedar api=v3 api=v4")
