# A recipe in the style of Spack's own, cut down for an example; written by hand, its checksums are made up.
from spack.package import *


class Python(Package):
    """A language."""

    for _release in ["3.12.3", "3.11.9", "3.10.14", "3.9.19"]:
        version(_release, sha256="378a1ea6ba22bfd9f8ba19e9e8ced5a575b4e3517da63a8ef91a30c7ff1d27b2")

    variant("shared", default=True, description="Shared library")
    variant("sqlite3", default=True, description="With SQLite")
    variant("tkinter", default=False, description="With Tk")
    variant("optimizations", default=False, description="Slow to build, fast to run")

    depends_on("c", type="build")
    depends_on("gmake", type="build")
    depends_on("pkgconfig@0.9.0:", type="build")
    with default_args(type=("build", "link")):
        depends_on("bzip2")
        depends_on("expat")
        depends_on("libffi")
        depends_on("openssl@1.1.1:", when="@3.10:")
        depends_on("readline")
        depends_on("sqlite@3.0.8:", when="+sqlite3")
        depends_on("xz")
        depends_on("zlib-api")

    conflicts("+tkinter", msg="there is no tk in this repository")
