# In the style of Spack's own recipes; written for the tests of site_tools.
from spack.package import *


class Acorn(MakefilePackage):
    """A small library for reading acorns. It comes with a plain Makefile."""

    homepage = "https://acorn.example.org"
    url = "https://acorn.example.org/releases/acorn-1.4.2.tar.gz"
    git = "https://acorn.example.org/acorn.git"

    maintainers("oak", "squirrel")

    license("Zlib", checked_by="oak")

    version("main", branch="main")
    version("1.4.2", sha256="ddbf13f570c2aa82bbb23f65dd5a7474f0930cfd88e80dffecf28fb217fab369")
    version("1.4.1", sha256="361b86ca39811496a671070f12047dc7d873d7ab1fd66a5888f98034bc68c3a9")
    version("1.3.0", sha256="54fdf7cdfe18973a4ed2567e8ed25bdb3c9d13e7fc5cf0a6038af3db7ceeda65", deprecated=True)

    variant("shared", default=True, description="Build shared libraries")
    variant("pic", default=True, description="Position independent code")

    depends_on("c", type="build")

    conflicts("+shared~pic", msg="shared libraries need position independent code")

    patch("makefile-install.patch", when="@:1.4.1")
    patch(
        "https://acorn.example.org/patches/fix-" + "overflow.patch",
        sha256="501990074e734ce78bff581b6a17c4c05918a85b893bcee410d0bc32f0bb4eba",
        when="@1.4.0:1.4.1 %gcc@12:",
    )

    resource(name="corpus", url="https://acorn.example.org/corpus.tgz", sha256="ca95d4738d63c6530289cc30529471c50aef7cfd8c18d7261ba00ad7b69d28b4", when="@1.4:")

    def edit(self, spec, prefix):
        makefile = FileFilter("Makefile")
        makefile.filter("^CC.*", f"CC = {spack_cc}")

    @property
    def install_targets(self):
        return [f"PREFIX={self.prefix}", "install"]
