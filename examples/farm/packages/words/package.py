class Words(Package):
    version("1.0")
    depends_on("letters")
