# In the style of Spack's own recipes; written for the tests of site_tools.
class Gorse(Package):
    version("1.0")

    def install(self, spec, prefix):
        print "Python 2"
