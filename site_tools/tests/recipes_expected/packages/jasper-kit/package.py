# Written by site_tools/import_repo from packages/jasper-kit/package.py.
class JasperKit(Package):
    variant("build_system", default="autotools", values=("autotools",))
    with when("build_system=autotools"):
        depends_on("gmake", type="build")
        conflicts("platform=windows")
    version("1.9")
    version("1.8")
    variant("fabrics", default="auto", values=("auto", "ofi", "ucx", "tcp"), multi=True)
    conflicts("fabrics=auto,ofi")
    conflicts("fabrics=auto,ucx")
    conflicts("fabrics=auto,tcp")
    variant("schedulers", default="none", values=("none", "slurm", "lsf"), multi=True)
    conflicts("schedulers=none,slurm")
    conflicts("schedulers=lsf,none")
    depends_on("acorn", when="fabrics=ofi")
    depends_on("cedar", when="fabrics=ucx schedulers=slurm")
    provides("net-api@1.9", when="@1.9")
