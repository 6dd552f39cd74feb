class Cmake(Package):
    version("3.27")
