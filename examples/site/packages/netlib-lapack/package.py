# Written by site_tools/import_repo from packages/netlib-lapack/package.py.
class NetlibLapack(Package):
    variant("build_system", default="cmake", values=("cmake",))
    with when("build_system=cmake"):
        variant("build_type", default="Release", values=("Debug", "Release", "RelWithDebInfo", "MinSizeRel"))
        variant("ipo", default=False, when="^cmake@3.9:")
        variant("generator", default="make", values=("make", "ninja"))
        depends_on("cmake", type="build")
        depends_on("gmake", type="build", when="generator=make")
        depends_on("ninja", type="build", when="generator=ninja")
    version("3.12.0")
    version("3.11.0")
    variant("shared", default=True)
    variant("external-blas", default=False)
    provides("lapack")
    provides("blas", when="~external-blas")
    depends_on("fortran", type="build")
    depends_on("blas", when="+external-blas")
    requires("^openblas", when="+external-blas")
