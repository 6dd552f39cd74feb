class Letters(Package):
    version("1.0")
