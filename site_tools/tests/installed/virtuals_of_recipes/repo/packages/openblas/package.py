class Openblas(Package):
    version("0.3.26")
    provides("blas")
