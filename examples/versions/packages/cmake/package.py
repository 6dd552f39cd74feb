class Cmake(Package):
    version("3.9.6")
    version("3.27.9")
    version("3.27.10-rc2")
