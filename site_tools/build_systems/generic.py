"""As Spack's documentation has them; nothing is known to be missing."""


class Package(PackageBase):
    build_system("generic")


class BundlePackage(PackageBase):
    build_system("bundle")


class GNUMirrorPackage(PackageBase):
    pass


class SourceforgePackage(PackageBase):
    pass


class SourcewarePackage(PackageBase):
    pass


class XorgPackage(PackageBase):
    pass
