class Empty(Package):
    pass
