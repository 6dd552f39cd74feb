class Perl(Package):
    version("5.36.0")
    variant("threads", default=True)
