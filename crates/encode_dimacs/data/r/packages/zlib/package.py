class Zlib(Package):
    version("1.3")
