class Zlib(Package):
    """A compression library."""

    version("1.3")
    version("1.2.11")

    variant("optimize", default=True)
