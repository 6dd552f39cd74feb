class Openssl(Package):
    version("1.1.1w")
    version("3.2.0-beta1")
    version("3.2.0")
    version("master")
