"""The packages of a made repository, drawn by a seed, around a graph that is planted.

Each package has a version and a value of each variant that the planted graph gives it: mostly the newest version and the defaults, at times
others. What a directive asks for holds in that graph wherever its condition does; no conflict holds there; and what could close a
cycle stands under a condition that does not hold there. So each package has a valid graph. The best one is another one, mostly.
"""
import random

import shape
from depends import Depends
from draws import APPLICATION, CORE, LIBRARY, SYSTEM, TOOL, Package, Variant, other, signed, version_text


class Repository(Depends):
    """All packages by name, in an order in which the planted graph's edges lead back."""

    def __init__(self, count, seed):
        self.random = random.Random(seed)
        self.packages, self.layers, self.place = {}, [[] for _ in range(5)], {}
        self.provided = {}  # of each provider the virtual packages
        for virtual, (providers, _) in shape.VIRTUALS.items():
            for provider in providers:
                self.provided.setdefault(provider, []).append(virtual)
        for name, layer in self.all_names(count):
            self.place[name] = len(self.packages)
            self.packages[name] = self.new_package(name, layer)
            self.layers[layer].append(name)
        for package in self.packages.values():
            self.add_provides(package)
            self.add_depends(package)
            self.add_cycle(package)
            self.add_conflicts(package)

    def all_names(self, count):
        """Each name with its layer: the named ones, a fifth of the recipes as libraries, the rest applications."""
        named = [(shape.SYSTEM, SYSTEM), (shape.TOOLS, TOOL), (shape.CORE, CORE)]
        found = [(name, layer) for those, layer in named for name in those]
        libraries = max(40, count // 5)
        applications = max(40, count - len(found) - libraries)
        for layer, word, how_many, share in ((LIBRARY, "lib", libraries, 0.3), (APPLICATION, "app", applications, 0.35)):
            for number in range(how_many):
                found.append((("py-" if self.random.random() < share else "") + "%s%04d" % (word, number), layer))
        return found

    # ---- versions and variants

    def new_package(self, name, layer):
        versions = self.new_versions(min(30, max(5, int(self.random.lognormvariate(2.3, 0.6)))))
        is_plain = name in shape.EXTERNALS  # one that the system has is as its defaults say
        chosen = 0 if is_plain or self.random.random() < 0.75 else self.random.randrange(1, min(4, len(versions)))
        package = Package(name, layer, name.startswith("py-"), versions, chosen)
        self.add_flags(package, is_plain)
        self.add_value_variants(package, is_plain)
        return package

    def add_flags(self, package, is_plain):
        count = self.random.randint(5, 6) if package.is_python else self.random.randint(4, 8 if package.layer < CORE else 11)
        flags = self.random.sample(shape.FLAGS, count)
        if package.layer >= CORE and not package.is_python and not self.is_low(package) and self.random.random() < 0.6:
            flags.insert(0, "mpi")
        for flag in flags:
            default = "true" if self.random.random() < (0.8 if flag in shape.USUALLY_ON else 0.25) else "false"
            chosen = default if is_plain or self.random.random() < 0.92 else other(default)
            if flag == "mpi":
                default = chosen = "true"  # handed down from package to package
            elif flag == "cuda":
                default = chosen = "false"
            has_condition = self.random.random() < 0.12
            when = "@%s:" % self.low(package, holds=True) if has_condition else ""
            package.variants[flag] = Variant(["true", "false"], default, chosen, when=when)

    def add_value_variants(self, package, is_plain):
        def add(name, values, default, is_multi=False, when=""):
            chosen = default if is_plain or name == "cuda_arch" or self.random.random() < 0.9 else self.random.choice(values)
            package.variants[name] = Variant(values, default, chosen, False, is_multi, when)

        if not package.is_python:
            add("build_system", ["cmake", "autotools"], self.random.choice(["cmake", "autotools"]))
            if self.random.random() < 0.5 and package.variants["build_system"].chosen == "cmake":
                add("build_type", ["Debug", "Release", "RelWithDebInfo", "MinSizeRel"], "Release", when="build_system=cmake")
        if self.random.random() < 0.12:
            values = ["none", "pthreads", "openmp", "all", "lz4", "zfp"][:self.random.randint(3, 6)]
            add("backend", values, "none", self.random.random() < 0.5)
        if "cuda" in package.variants:
            add("cuda_arch", ["none", "60", "70", "75", "80", "86", "90"], "none", True)

    def is_low(self, package):
        """Whether it stands below a provider, or is one: then it needs no virtual package that may need it."""
        return package.name in shape.UNDER_PROVIDERS or package.name in shape.PROVIDERS

    # ---- what else a recipe says

    def add_provides(self, package):
        for virtual in self.provided.get(package.name, ()):
            if virtual == "mpi":
                package.provides += [("mpi@:3", ""), ("mpi@:4", "@%s:" % self.low(package, holds=True))]
            else:
                package.provides.append((virtual + "@3" if shape.VIRTUALS[virtual][1] else virtual, ""))

    def add_conflicts(self, package):
        for _ in range(self.random.randint(0, 4 if package.layer >= CORE else 1)):
            draw, flags = self.random.random(), package.flags()
            if draw < 0.3:
                version = self.random.randint(4, 11)
                package.conflicts.append(("%%gcc@:%d" % version, "@" + self.range_of(package, True)))
            elif draw < 0.5 and len(flags) > 1:
                one, two = self.random.sample(flags, 2)
                value = package.variants[one].chosen
                package.conflicts.append((signed(one, other(value)), signed(two, self.random.choice(["true", "false"]))))
            elif draw < 0.65 and package.chosen > 0:  # the newest versions do not do
                newest = version_text(package.versions[package.chosen - 1])
                package.conflicts.append(("@%s:" % newest, signed(*self.default_of(package)) if self.random.random() < 0.5 else ""))
            elif draw < 0.75:
                package.conflicts.append(("%%clang@:%d" % self.random.randint(6, 18), ""))
            elif draw < 0.85 and "cuda" in package.variants:
                package.conflicts.append(("cuda_arch=none", "+cuda"))
            elif draw < 0.93 and flags:
                package.conflicts.append(("target=x86_64:x86_64_v2", "+" + self.random.choice(flags)))
            elif flags:
                package.requires.append(("%gcc", "+" + self.random.choice(flags)))

    def default_of(self, package):
        flag = self.random.choice(package.flags())
        return flag, package.variants[flag].default
