# In the style of Spack's own recipes; written for the tests of site_tools.
import itertools

from spack.package import *


class Birch(Package):
    """Lists that are computed from lists."""

    version("1.2", sha256="27390eaaa099b479743832128a716b31b5e12236c7e7414fb590dfa9856ec7b4")

    parts = [f"part-{n:02d}" for n in range(3) if n != 1]
    for part in parts:
        variant(part, default=False, description="Build " + part)
    for left, right in itertools.product(parts[:1], parts[1:]):
        conflicts("+" + left + "+{}".format(right))
    for cuda, *rest in [("11", "a")]:
        depends_on("kelp")
    limits = {**{"gcc": "8"}, "clang": "7"}
    requires(*[f"%{name}@{limits[name]}:" for name in limits], policy="any_of")
    parts += ["part-09"]
    variant(parts[-1].upper(), default=True, description="The last one")
    depends_on("acorn@%d.%d:" % (1, 4))
