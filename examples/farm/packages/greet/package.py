class Greet(Package):
    version("1.0")
    depends_on("frames")
    depends_on("words")
