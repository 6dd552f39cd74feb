class Cmake(Package):
    """A build system."""

    version("3.27.4")
    version("3.16.5")
