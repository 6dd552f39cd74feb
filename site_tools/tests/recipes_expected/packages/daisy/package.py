# Written by site_tools/import_repo from packages/daisy/package.py.
class Daisy(Package):
    variant("build_system", default="generic", values=("generic",))
    version("1.0")
    variant("blas", default="system", values=("system", "open", "lapack", "mkl"), multi=True)
    conflicts("blas=open,system")
    conflicts("blas=lapack,system")
    conflicts("blas=mkl,system")
    conflicts("blas=mkl,open")
    conflicts("blas=lapack,mkl")
    variant("logs", default="none", values=("none", "text", "json"), multi=True, when="+x")
    conflicts("logs=none,text", when="+x")
    conflicts("logs=json,none", when="+x")
    variant("x", default=False)
