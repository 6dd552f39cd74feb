class Curl(Package):
    version("8")
    variant("pic", default=True)
