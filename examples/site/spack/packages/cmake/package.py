# A recipe in the style of Spack's own, cut down for an example; written by hand, its checksums are made up.
from spack.package import *


class Cmake(Package):
    """Makes build files for many tools."""

    version("3.29.2", sha256="373e01c9e688f96ace30d05888dcc0e8e38584676b9db37355517914590248bf")
    version("3.28.5", sha256="1da70d5b1c9071735d0991e4cadb71681ff23cb54084612a08f529eedd345ea3")
    version("3.27.9", sha256="bc16f8b56d4ba2d1aa439be40694703be48c018edeaf90d65cedc07c55081bf3")
    version("3.20.6", sha256="35f294f1e62f036956cc64b4339ea0fa4ad8e3173cbe545cb761be8f9f80a842")

    variant("ownlibs", default=True, description="Its own copies of libraries")
    variant("ncurses", default=True, description="ccmake")

    depends_on("c", type="build")
    depends_on("cxx", type="build")
    depends_on("gmake", type=("build", "run"))
    depends_on("ncurses", when="+ncurses")

    with when("~ownlibs"):
        depends_on("curl")
        depends_on("zlib-api")
        depends_on("zstd")
        depends_on("expat", when="@3.20:")

    depends_on("curl", when="+ownlibs")

    conflicts("%gcc@:4.8", when="@3.11:", msg="needs C++11")
