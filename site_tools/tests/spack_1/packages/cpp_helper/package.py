# In the style of Spack 1.0; written for the tests of site_tools.
from spack.package import *


class CppHelper(Package):
    version("1.0", sha256="0")

    requires("%clang", when="%c=clang")
    provides("iconv")
