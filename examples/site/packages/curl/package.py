# Written by site_tools/import_repo from packages/curl/package.py.
class Curl(Package):
    variant("build_system", default="autotools", values=("autotools",))
    with when("build_system=autotools"):
        depends_on("gmake", type="build")
        conflicts("platform=windows")
    version("8.7.1")
    version("8.6.0")
    version("7.88.1", deprecated=True)
    variant("tls", default="openssl", values=("openssl", "mbedtls"), multi=True)
    requires("@7.46:", when="tls=mbedtls")
    variant("nghttp2", default=False, when="@8:")
    depends_on("c", type="build")
    depends_on("openssl", when="tls=openssl")
    depends_on("zlib-api")
    depends_on("pkgconfig", type="build")
    conflicts("tls=mbedtls")
