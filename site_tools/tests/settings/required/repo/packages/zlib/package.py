class Zlib(Package):
    version("1.3")
    variant("pic", default=True)
