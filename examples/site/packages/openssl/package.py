# Written by site_tools/import_repo from packages/openssl/package.py.
class Openssl(Package):
    variant("build_system", default="generic", values=("generic",))
    version("3.3.0")
    version("3.0.13")
    version("1.1.1w", deprecated=True)
    variant("certs", default="mozilla", values=("mozilla", "system", "none"))
    variant("shared", default=True)
    depends_on("c", type="build")
    depends_on("perl@5.14:", type=("build", "test"))
    depends_on("zlib-api")
