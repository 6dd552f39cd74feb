# In the style of Spack's own recipes; written for the tests of site_tools.
from spack.package import *


class AspenBundle(BundlePackage):
    """Many packages, by loops over what is literal."""

    version("2024.1")
    version("2023.2")

    tools = ["acorn", "cedar", "dunes"]
    for tool in tools:
        depends_on(tool, type="run")
    for tool, low in zip(tools, ("1.4", "4", "0.9")):
        depends_on(f"{tool}@{low}:", type="run", when="@2024.1")

    types = dict(type=("build", "run"))
    depends_on("py-ember", **types)

    options = {"full": True, "docs": False}
    for name in options:
        variant(name, default=options[name], description=name)
    depends_on("basalt", type=("run",), when=" ".join("+" + name for name in sorted(options)))
