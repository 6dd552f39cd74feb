class Hdf5(Package):
    version("1.14")
    variant("pic", default=True)
