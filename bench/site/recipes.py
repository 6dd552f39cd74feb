"""The texts of a made repository: recipes as Spack's are written, with all that a reader has to pass over, and settings."""
import json
import os
import random

import shape
from draws import version_text

HEAD = '''# Copyright Spack Project Developers. See COPYRIGHT file for details.
#
# SPDX-License-Identifier: (Apache-2.0 OR MIT)

from spack.package import *


class {class_name}({base}):
    """{name} is a made package. It says what a package of its kind says, so that a concretizer has something to read."""

    homepage = "https://www.example.org/{name}"
    url = "https://www.example.org/{name}/{name}-1.0.tar.gz"
    git = "https://github.com/example/{name}.git"

    maintainers("alice", "bob")

    license("BSD-3-Clause", checked_by="alice")

'''

METHODS = '''
    def setup_build_environment(self, env):
        env.set("LIB_ROOT", self.prefix)

    def cmake_args(self):
        spec = self.spec
        args = [
            self.define_from_variant("BUILD_SHARED_LIBS", "shared"),
            self.define("CMAKE_INSTALL_PREFIX", self.prefix),
        ]
        if spec.satisfies("+mpi"):
            args.append(self.define("MPI_C_COMPILER", spec["mpi"].mpicc))
        return args

    @run_after("install")
    def post_install(self):
        for name in ("README", "LICENSE"):
            install(name, self.prefix)
'''


def quoted(text):
    return '"%s"' % text


def call(word, *values, **keywords):
    return "%s(%s)" % (word, ", ".join([*values, *("%s=%s" % pair for pair in keywords.items() if pair[1])]))


def version_lines(package, drawn):
    if drawn.random() < 0.4:
        branch = quoted(drawn.choice(["main", "develop"]))
        yield call("version", branch, branch=branch)
    for place, version in enumerate(package.versions):
        is_old = place > 0.7 * len(package.versions) and place > package.chosen and drawn.random() < 0.15
        yield call("version", quoted(version_text(version)), sha256=quoted("%064x" % drawn.getrandbits(256)), deprecated="True" if is_old else "")


def variant_lines(package):
    for name, variant in package.variants.items():
        when = variant.when and quoted(variant.when)
        if variant.is_flag:
            about = quoted("Enable %s support in the library and its tools" % name)
            yield call("variant", quoted(name), default=variant.default.title(), description=about, when=when)
        else:
            values = "(%s)" % ", ".join(map(quoted, variant.values))
            yield call("variant", quoted(name), default=quoted(variant.default), values=values, multi=str(variant.is_multi),
                       description=quoted("What is taken for " + name), when=when)


def depends_lines(package):
    """The dependencies under one condition stand together; where they are several, in a block."""
    under = {}
    for name, asks, when, kinds, _ in package.depends:
        under.setdefault(when, []).append((name + asks, kinds))
    for when, those in under.items():
        if when and len(those) > 1:
            yield "with when(%s):" % quoted(when)
        for asked, kinds in those:
            line = call("depends_on", quoted(asked), type=kinds, when=when and len(those) == 1 and quoted(when))
            yield "    " + line if when and len(those) > 1 else line


def restriction_lines(package):
    for name, when in package.provides:
        yield call("provides", quoted(name), when=when and quoted(when))
    for spec, when in package.conflicts:
        yield call("conflicts", quoted(spec), when=when and quoted(when), msg=quoted("this does not build"))
    for spec, when in package.requires:
        yield call("requires", quoted(spec), when=when and quoted(when))


def recipe(package, seed):
    drawn = random.Random("%s %s" % (seed, package.name))
    class_name = "".join(word.title() for word in package.name.split("-"))
    base = "PythonPackage" if package.is_python else "CMakePackage"
    lines = [*version_lines(package, drawn), "", *variant_lines(package), "", call("depends_on", '"c"', type='"build"'),
             call("depends_on", '"cxx"', type='"build"'), "", *depends_lines(package), "", *restriction_lines(package)]
    block = "".join("    %s\n" % line if line else "\n" for line in lines)
    return HEAD.format(class_name=class_name, base=base, name=package.name) + block + METHODS


def settings(packages):
    """Three compilers, four targets, twelve packages that the system has, and preferred versions of some."""
    said = {}
    for name in shape.EXTERNALS:
        spec = "%s@%s" % (name, version_text(packages[name].version))
        said[name] = {"externals": [{"spec": spec, "prefix": "/usr"}], "buildable": name not in shape.NOT_BUILT}
    for name in ("python", "cmake", "llvm", "boost", "hdf5", "openmpi"):
        said[name] = {"versions": [version_text(packages[name].version[:2])]}
    below = ["zen3", "x86_64_v3", "x86_64_v2", "x86_64"]
    return {
        "platform": "linux",
        "os": ["rocky9"],
        "targets": [{"name": name, "parents": below[place + 1:place + 2]} for place, name in enumerate(below)],
        "compilers": [
            {"name": "gcc", "version": "13.2.0"},
            {"name": "gcc", "version": "11.4.0"},
            {"name": "clang", "version": "17.0.1", "targets": below[1:]},
        ],
        "providers": {virtual: providers for virtual, (providers, _) in shape.VIRTUALS.items()},
        "packages": said,
    }


def write(folder, repository, seed):
    """Writes all recipes and settings.json; gives the bytes of the recipes."""
    total = 0
    for name, package in repository.packages.items():
        text = recipe(package, seed)
        os.makedirs(os.path.join(folder, "packages", name))
        with open(os.path.join(folder, "packages", name, "package.py"), "w") as file:
            file.write(text)
        total += len(text)
    with open(os.path.join(folder, "settings.json"), "w") as file:
        json.dump(settings(repository.packages), file, indent=1)
    return total
