# Written by site_tools/import_repo from packages/moss/package.py, with parts left out (see the report).
class Moss(Package):
    variant("build_system", default="generic", values=("generic",))
    version("1.0")
    conflicts("platform=darwin", when="target=aarch64:")
    conflicts("target=ppc64le:")
    conflicts("target=x86_64_v2:x86_64_v4,zen2")
    conflicts("os=centos6")
    depends_on("acorn target=x86_64:", when="platform=linux os=rhel8")
    requires("target=:broadwell", when="@1.0")
