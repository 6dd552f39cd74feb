# Copyright the authors of Tarosickle. Written by hand, in the style of Spack's own recipes.
#
# SPDX-License-Identifier: (Apache-2.0 OR MIT)

import os
import re
import shutil

from spack.build_systems import cmake
from spack.package import *


class Hdf5(CMakePackage):
    """HDF5 is a data model, library, and file format for storing and managing
    data. It supports an unlimited variety of datatypes, and is designed for
    flexible and efficient I/O and for high volume and complex data.

    This recipe is an example: its "versions" and checksums ('sha256') are made up.
    """

    homepage = "https://www.hdfgroup.org"
    url = "https://example.org/hdf5/releases/hdf5-1.10/hdf5-1.10.7/src/hdf5-1.10.7.tar.gz"
    list_url = "https://example.org/hdf5/releases"
    list_depth = 3
    git = "https://example.org/hdf5.git"

    maintainers("lrknox", "brtnfld", "byrnHDF", "gheber", "hyoklee", "lkurz")

    tags = ["e4s", "windows"]
    executables = ["^h5cc$", "^h5pcc$"]

    test_requires_compiler = True

    license("custom")

    # The development branches.
    version("develop-1.17", branch="develop")
    version("develop-1.16", branch="hdf5_1_16")
    version("develop-1.14", branch="hdf5_1_14")

    version(
        "1.14.5",
        sha256="ec2e13c52e60f9a01491bb3158cb3778c985697131fc6a342262d32a26e58e44",
        url="https://example.org/hdf5/releases/v1_14/v1_14_5/downloads/hdf5-1.14.5.tar.gz",
        preferred=True,
    )
    version(
        "1.14.4-3",
        sha256="019ac451d9e1cf89c0482ba2a06f07a46166caf23f60fea5ef3c37724a318e03",
        url="https://example.org/hdf5/releases/v1_14/v1_14_4/downloads/hdf5-1.14.4-3.tar.gz",
    )
    version("1.14.3", sha256="09cdb287aa7a89148c1638dd20891fdbae08102cf433ef128fd345338aa237c7")
    version("1.14.2", sha256="1c342e634008284a8c2794c8e7608e2eaf26d01d445fb3dfd7f33cb2fb51ac53")
    version("1.14.1-2", sha256="cbe93f275d5231df28ced9549253793e40cd2b555e3d288df09d7b89a9967b07")
    version("1.14.0", sha256="a571cc83efda62e1a51a0a912dd916d01895801c5025af91669484a1575a6ef4")
    version("1.12.3", sha256="c15adf34647918dd48150ea1bd9dffd3b32a3aec5298991d56048cc3d39b4f6f")
    version("1.12.2", sha256="2a89af03d56ce7502dcae18232c241281ad1773561ec00c0f0e8ee2463910f14")
    version("1.12.1", sha256="79c66ff67e666665369396e9c90b32e238e501f345afd2234186bfb8331081ca")
    version("1.12.0", sha256="a62dcb276658cb78e6795dd29bf926ed7a9bc4edf6e77025cd2c689a8f97c17a")
    version("1.10.11", sha256="341684c5c0976b8c7e6951735a400275a90693604464cac73e9f323c696fc79c")
    version("1.10.10", sha256="a6877ab7bd5d769d2d68618fdb54beb50263dcc2a8c157fe7e2186925cdb02db")
    version("1.10.9", sha256="f5b77f59b705a755a5a223372d0222c7bc408fe8db6fa8d9d7ecf8bce291b8dd")
    version("1.10.8", sha256="d341b80d380dd763753a0ebe22915e11e87aac4e44a084a850646ff934d19c80")
    version("1.10.7", sha256="7a1a0a54371275ce2dfc5cd093775bb025c365846512961e7e5ceaecb437ef15")
    version("1.8.23", sha256="37fa4eb6cd0e181eb49a10d54611cb00700e9537f805d03e6853503affb3abbb")
    version("1.8.22", sha256="8406d96d9355ef8961d2739fb8fd5474ad4cdf52f3cfac657733defd9709bfaa")
    version(
        "1.8.21",
        sha256="87d8c82eba5cf766d97cd06c054f4639c1049c4adeaa3a79f77f8bd374f80f37",
        deprecated=True,
    )

    variant("shared", default=True, description="Builds a shared version of the library")
    variant("hl", default=False, description="Enable the high-level library")
    variant("cxx", default=False, description="Enable C++ support")
    variant("map", when="@1.14:", default=False, description="Enable MAP API support")
    variant("fortran", default=False, description="Enable Fortran support")
    variant("java", when="@1.10:", default=False, description="Enable Java support")
    variant("threadsafe", default=False, description="Enable thread-safe capabilities")
    variant("tools", default=True, description="Enable building tools")
    variant("mpi", default=True, description="Enable MPI support")
    variant("szip", default=False, description="Enable szip support")
    variant(
        "subfiling", when="@1.14: +mpi", default=False, description="Enable Subfiling VFD support"
    )
    variant(
        "api",
        default="default",
        description="Choose api compatibility for earlier version",
        values=("default", "v116", "v114", "v112", "v110", "v18", "v16"),
        multi=False,
    )
    variant(
        "plugins",
        default="zfp,bitshuffle",
        values=("bitshuffle", "lz4", "zfp", "zstd"),
        multi=True,
        description="Filters that are installed beside the library",
    )

    depends_on("c", type="build")
    depends_on("cxx", type="build", when="+cxx")
    depends_on("fortran", type="build", when="+fortran")

    depends_on("cmake@3.12:", type="build")
    depends_on("cmake@3.18:", type="build", when="@1.13:")

    with when("+mpi"):
        depends_on("mpi")
        with when("+subfiling"):
            # Subfiling asks for threads in MPI.
            requires("^mpich@4:", "^openmpi@5:", policy="one_of", msg="needs a newer MPI")
        conflicts("+cxx", when="@:1.8.12", msg="no C++ beside MPI in old versions")

    depends_on("java", type=("build", "run"), when="+java")
    depends_on("szip", when="+szip")
    depends_on("zlib-api")
    depends_on("perl@5:", type="test")

    provides("hdf5-api")
    provides("hdf5-hl-api@1.8", when="+hl")

    # See https://example.org/hdf5/threads: the library is not thread-safe in C++, Fortran or
    # the high-level library, unless one asks for it (`--enable-unsupported`).
    conflicts("+threadsafe", when="+cxx")
    conflicts("+threadsafe", when="+fortran")
    conflicts("+threadsafe", when="+hl")
    conflicts("api=v114", when="@:1.12", msg="v114 is not compatible with this release")
    conflicts("api=v112", when="@1.6.0:1.10", msg="v112 is not compatible with this release")

    requires("%gcc", "%clang", "%oneapi", policy="any_of", when="platform=linux")

    filter_compiler_wrappers("h5cc", "h5hlcc", "h5fc", "h5hlfc", "h5c++", relative_root="bin")

    # A patch that is fetched, and one that lies beside the recipe.
    patch(
        "https://example.org/hdf5/patches/" + "a-patch.patch",
        sha256="57cee5ff1992b4098eda079815c36fc2da9b10e00a9056df054f2384c4fc7523",
        when="@1.10.0:1.10.2 %gcc@{0}".format("8:"),
    )
    patch("h5f90global-mult-obj-same-equivalence-same-common-block.patch", when="@1.10.2 %intel@18")

    resource(
        name="samples",
        url="https://example.org/hdf5/samples.tar.gz",
        sha256="c1a1cd5ad9f0e3ea2a5fae3b9b1f3a7e3d1a6a5bbd3d1bd1b8b1a1a4d3f0a1b2",
        destination=join_path("share", "samples"),
        when="+tools",
    )

    # The compression filters are libraries of their own.
    with when("@1.12:"):
        depends_on("zstd", when="plugins=zstd")
        depends_on("lz4", when="plugins=lz4")

    def url_for_version(self, version):
        url = "https://example.org/hdf5/releases/v{0}/v{1}/downloads/hdf5-{2}.tar.gz"
        if version < Version("1.10"):
            return "https://example.org/hdf5/old/hdf5-{0}.tar.gz".format(version)
        return url.format(version.up_to(2).underscored, version.underscored, version)

    def flag_handler(self, name, flags):
        spec = self.spec
        cmake_flags = []

        if name == "cflags":
            if spec.satisfies("%gcc") or spec.satisfies("%clang"):
                # Quiet warnings/errors about implicit declaration of functions in C99:
                cmake_flags.append("-Wno-error=implicit-function-declaration")
            cmake_flags.append(self.compiler.cc_pic_flag)
        elif name == "fflags" and "%cce" in spec and \
                "+fortran" in spec:
            # Cray Fortran makes module files with upper case names.
            cmake_flags.append("-ef")

        return flags, None, (cmake_flags or None)

    @property
    def libs(self):
        """Finds the libraries of HDF5.

        A client may ask for some of them: "hl", "fortran", "java".
        """
        query_parameters = self.spec.last_query.extra_parameters
        key = tuple(sorted(query_parameters))
        query2libraries = {
            tuple(): ["libhdf5"],
            ("cxx", "hl"): ["libhdf5_hl_cpp", "libhdf5_hl", "libhdf5_cpp", "libhdf5"],
            ("java",): [
                "libhdf5_java",
                # the library itself comes last
                "libhdf5",
            ],
        }
        libraries = query2libraries[key]
        shared = "+shared" in self.spec
        return find_libraries(libraries, root=self.prefix, shared=shared, recursive=True)

    @classmethod
    def determine_version(cls, exe):
        output = Executable(exe)("-showconfig", output=str, error=str)
        match = re.search(r"HDF5 Version: (\d+\.\d+\.\d+)(\D*\S*)", output)
        return match.group(1) if match else None

    @run_before("cmake")
    def fortran_check(self):
        if self.spec.satisfies("+fortran") and not self.compiler.fc:
            msg = "cannot build a Fortran variant without a Fortran compiler"
            raise RuntimeError(msg)

    @run_after("install")
    @on_package_attributes(run_tests=True)
    def check_install(self):
        """Compiles a small program, and runs it."""
        spec = self.spec
        print("Checking HDF5 installation...")
        checkdir = "spack-check"
        with working_dir(checkdir, create=True):
            source = r"""
#include <hdf5.h>
#include <stdio.h>
int main(int argc, char **argv) {
  unsigned majnum, minnum, relnum;
  herr_t herr = H5get_libversion(&majnum, &minnum, &relnum);
  if (herr) { printf("error\n"); }
  return 0;
}
"""
            expected = f"HDF5 version {spec.version.up_to(3)} {spec.version.up_to(3)}\n"
            with open("check.c", "w", encoding="utf-8") as f:
                f.write(source)
        shutil.rmtree(checkdir)


class CMakeBuilder(cmake.CMakeBuilder):
    """Arguments of CMake."""

    def cmake_args(self):
        spec = self.spec
        args = [
            self.define("HDF5_ENABLE_Z_LIB_SUPPORT", True),
            self.define_from_variant("BUILD_SHARED_LIBS", "shared"),
            self.define_from_variant("HDF5_BUILD_CPP_LIB", "cxx"),
        ]

        api = spec.variants["api"].value
        if api != "default":
            args.append(self.define("DEFAULT_API_VERSION", api))

        # Étude: bytes from 128 up stand in comments and in strings ("ü"), and in names.
        größe = {"a": 1, "b": [2, 3]}
        return args + [str(größe)]
