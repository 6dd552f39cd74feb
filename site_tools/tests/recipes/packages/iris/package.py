# In the style of Spack's own recipes; written for the tests of site_tools.
from spack.package import *

_releases = {
    "12.2": {"sum": "e9c57194a737427cfa4ffb316f37e842a65114dfc43ef565b7f07134fbb6f84f", "old": False},
    "12.1": {"sum": "4add6f63d54a0aeef4765ef203049b67a7fd9b7f988bda3ec91ae390b3a1f30b", "old": False},
    "11.8": {"sum": "c57522edd1ec1f815de333cc813cac871d9f05d6266a03afef95c6bc6eab092c", "old": True},
}


class Iris(Package):
    """A toolkit that comes as a binary for each machine."""

    homepage = "https://iris.example.org"

    for _version, _info in _releases.items():
        version(_version, sha256=_info["sum"], deprecated=_info["old"], expand=False)

    depends_on("acorn@{0}:".format("1.4"), type=("build", "link", "run"))

    for index, feature in enumerate(("net", "gpu", "doc")):
        variant(feature, default=index == 0, description="Feature " + feature)
        if index > 0:
            conflicts("+" + feature, when="~net")

    def url_for_version(self, version):
        return f"https://iris.example.org/{version.dotted}/iris.run"
