# In the style of Spack's own recipes; written for the tests of site_tools.
from spack.package import *


class Clover(Package):
    """Versions that are compared while the recipe is read."""

    for release in ("2.4.1", "2.3.0", "1.9.9"):
        version(release, sha256="dad294b8e68d234069aae413c9d6595915c6c085e25f6ef79f1f2c1528d0d812")
        if Version(release) >= Version("2.0"):
            depends_on(f"cedar@{Version(release).up_to(2)}:", when=f"@{release}")

    newest = max(Version("1.9"), Version("1.10"))
    conflicts(f"@{newest}")
    if Version("2.0-rc1") < Version("2.0"):
        conflicts("@2.0")
    if Version("1.9") < ver("1.8:2"):
        conflicts("@1.9")
