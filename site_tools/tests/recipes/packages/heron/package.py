# In the style of Spack's own recipes; written for the tests of site_tools.
from spack.package import *


class Heron(CMakePackage):
    """Meshes for water. Its parts are released together, so their versions go in step."""

    url = "https://heron.example.org/heron-6.2.tar.gz"

    for _release in ("6.2", "6.1", "6.0", "5.9"):
        version(_release, sha256="1a0bf7db1eabd066023c4c628db612a92097f8e81a2d88c684ef790dec8c0cc7")

    for _release in ("6.2", "6.1", "6.0"):
        depends_on(f"basalt@{_release.split('.')[1]}:", when=f"@{_release}")

    _old = ["4.9", "5.0"]
    for compiler in ["gcc@:7", "clang@:6"]:
        for old in _old + ["5.9"]:
            conflicts("%" + compiler, when="@%s" % old, msg="does not compile")

    variant("cxxstd", default="17", values=[str(year) for year in (14, 17, 20)], description="Standard of C++")
    for std, first in [("20", "6.1"), ("14", "5.0")]:
        conflicts(f"cxxstd={std}", when=f"@:{first}")
