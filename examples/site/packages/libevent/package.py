# Written by site_tools/import_repo from packages/libevent/package.py.
class Libevent(Package):
    variant("build_system", default="autotools", values=("autotools",))
    with when("build_system=autotools"):
        depends_on("gmake", type="build")
        conflicts("platform=windows")
    version("2.1.12")
    variant("openssl", default=True)
    depends_on("c", type="build")
    depends_on("openssl", when="+openssl")
