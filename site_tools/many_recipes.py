#!/usr/bin/env python3
"""Makes a repository of many recipes in Spack's style, to measure import_repo with: `site_tools/many_recipes.py COUNT OUT`.

The recipes are of the length that Spack's have (3 KB each), and name each other; they are made up.
"""
import argparse
import hashlib
import random
from pathlib import Path

HEAD = """# Copyright Spack Project Developers. See COPYRIGHT file for details.
#
# SPDX-License-Identifier: (Apache-2.0 OR MIT)
import os
import sys

from spack.package import *


class {name}({bases}):
    \"\"\"A library of {what}, which says in some lines what it is for and who writes it, as recipes do, so that
    a file has the length that it has elsewhere.\"\"\"

    homepage = "https://{package}.example.org/"
    url = "https://{package}.example.org/releases/{package}-1.0.tar.gz"
    git = "https://{package}.example.org/{package}.git"

    maintainers("someone", "another")

    license("BSD-3-Clause", checked_by="someone")

"""
TAIL = """
    def configure_args(self):
        spec = self.spec
        args = ["--prefix=" + self.prefix, self.define_from_variant("ENABLE_SHARED", "shared")]
        for name in ("mpi", "shared"):
            if spec.satisfies("+" + name):
                args.append("--enable-" + name)
            else:
                args.append("--disable-" + name)
        if spec.satisfies("%gcc@10:"):
            args.append("FFLAGS=-fallow-argument-mismatch")
        return args

    @run_after("install")
    def fix(self):
        filter_file("a", "b", os.path.join(self.prefix.lib, "pkgconfig", "file.pc"))
"""
BASES = ["AutotoolsPackage", "CMakePackage", "PythonPackage", "Package", "MakefilePackage", "CMakePackage, CudaPackage", "RPackage"]


def recipe(number: int, count: int) -> str:
    """One recipe."""
    rolls = random.Random(number)
    base = BASES[number % len(BASES)]
    text = HEAD.format(name=f"P{number}", bases=base, package=f"p{number}", what="things")
    for version in range(rolls.randint(3, 20)):
        digest = hashlib.sha256(f"{number} {version}".encode()).hexdigest()
        text += f'    version("{9 - version // 4}.{version % 4}.{number % 7}", sha256="{digest}")\n'
    text += '\n    variant("mpi", default=True, description="Parallel")\n'
    text += '    variant("shared", default=True, description="Shared libraries")\n'
    text += '    variant("kind", default="a", values=("a", "b", conditional("c", when="@2:")), multi=False, description="A kind")\n'
    text += '\n    depends_on("c", type="build")\n    depends_on("cxx", type="build")\n\n'
    for _ in range(rolls.randint(2, 12)):
        other = rolls.randrange(count)
        when = rolls.choice(["", ', when="+mpi"', ', when="@2:"', ', when="@:3.1"', ', type=("build", "run")', ', type="build"'])
        text += f'    depends_on("p{other}{rolls.choice(["", "@2:", "+shared", "@1.2:3 kind=b"])}"{when})\n'
    if "Cuda" in base:
        text += '    for arch in CudaPackage.cuda_arch_values:\n'
        text += '        depends_on(f"p1 cuda_arch={arch}", when=f"+cuda cuda_arch={arch}")\n'
    text += '    with when("+mpi"):\n        depends_on("mpi@3:")\n        conflicts("%gcc@:4", msg="too old")\n'
    return text + '    conflicts("kind=c", when="~shared")\n' + TAIL


def main() -> None:
    """Writes the repository."""
    parser = argparse.ArgumentParser(description=__doc__)
    parser.add_argument("count", type=int, metavar="COUNT")
    parser.add_argument("out", type=Path, metavar="OUT")
    given = parser.parse_args()
    for number in range(given.count):
        folder = given.out / "packages" / f"p{number}"
        folder.mkdir(parents=True, exist_ok=True)
        (folder / "package.py").write_text(recipe(number, given.count), "utf-8")


if __name__ == "__main__":
    main()
