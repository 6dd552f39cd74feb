class Frames(Package):
    version("1.0")
