class Tool(Package):
    version("1.0")
    variant("gui", default=False)
    depends_on("lib", when="+gui")
