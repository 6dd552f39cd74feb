"""What packages of a made repository depend on, layer by layer."""
import re

import shape
from draws import APPLICATION, CORE, LIBRARY, SYSTEM, TOOL, Draws, other, signed


class Depends(Draws):
    """Adds the dependencies of packages. `packages` are those that there are, `layers` their names by layer, `place` where each stands."""

    def earlier(self, package, layer):
        return [name for name in self.layers[layer] if self.place[name] < self.place[package.name]]

    def depend(self, package, name, when=("", True), kinds="", asks=None):
        """A dependency on a package or a virtual one. What it asks for is drawn where it is not given."""
        if name == package.name or name in shape.NOT_BUILT and when[1]:
            return
        if asks is None:
            asks = self.asked(name, when[1]) if name in self.packages else ""
        package.depends.append((name, asks, when[0], kinds, when[1]))

    def asked(self, name, holds):
        """What is asked of a child: where the dependency is one of the planted graph, something that holds there."""
        child, text = self.packages[name], ""
        holds = holds or self.random.random() < 0.7
        if self.random.random() < 0.55:
            text = "@" + self.range_of(child, holds)
        flags = [flag for flag in child.flags() if flag not in ("mpi", "cuda")]
        if flags and self.random.random() < 0.2:
            flag = self.random.choice(flags)
            value = child.variants[flag].chosen
            text += signed(flag, value if holds else other(value))
        return text

    def add_depends(self, package):
        if package.name in ("gmake", "pkgconf", "pkg-config"):
            return  # everything builds with these
        if package.layer == SYSTEM:
            self.add_low_depends(package, self.random.randint(0, 3))
        elif package.is_python:
            self.add_python_depends(package)
        elif package.layer == TOOL or self.is_low(package):
            self.add_low_depends(package, self.random.randint(1, 5))
            if package.layer == CORE:
                self.add_build_tools(package)
                for name in self.popular([n for n in self.earlier(package, CORE) if n in shape.UNDER_PROVIDERS], 2):
                    self.depend(package, name, self.condition(package))
        else:
            self.add_library_depends(package)

    def add_low_depends(self, package, count):
        for name in self.popular(self.earlier(package, SYSTEM), count):
            self.depend(package, name, self.condition(package))
        if package.layer == TOOL:
            for name in self.popular([n for n in self.earlier(package, TOOL) if not n.startswith("py-")], self.random.randint(0, 3)):
                self.depend(package, name, self.condition(package), '"build"')
        elif "build_system" in package.variants and package.layer == SYSTEM and package.name not in ("zlib", "zlib-ng"):
            self.depend(package, "gmake", self.built_by(package, "autotools"), '"build"', "")
            if self.random.random() < 0.3:
                self.depend(package, "pkgconfig", kinds='"build"')

    def built_by(self, package, system):
        return "build_system=" + system, package.variants["build_system"].chosen == system

    def add_build_tools(self, package):
        self.depend(package, "cmake", self.built_by(package, "cmake"), '"build"')
        by_autotools = self.built_by(package, "autotools")
        self.depend(package, "gmake", by_autotools, '"build"', "")
        if self.random.random() < 0.3:
            for name in ("autoconf", "automake", "libtool", "m4"):
                self.depend(package, name, by_autotools, '"build"', "")
        for name, share in (("pkgconfig", 0.4), ("perl", 0.3), ("yacc", 0.15)):
            if self.random.random() < share:
                self.depend(package, name, kinds='"build"', asks="")

    def add_python_depends(self, package):
        runs = '("build", "run")'
        self.depend(package, "python", kinds=runs)
        if package.name not in ("py-pip", "py-wheel", "py-setuptools"):
            for name in ("py-pip", "py-wheel", "py-setuptools"):
                self.depend(package, name, kinds='"build"', asks="" if name != "py-setuptools" else None)
        if package.layer == CORE:
            wanted = {"py-numpy": ["blas", "lapack", "py-cython"], "py-scipy": ["lapack", "py-numpy", "py-pybind11"], "py-mpi4py": ["mpi"]}
            for name in wanted[package.name]:
                self.depend(package, name)
        if package.layer <= CORE:
            return
        for name in self.popular(["py-numpy", "py-scipy", "py-mpi4py"] + self.layers[TOOL][-10:], self.random.randint(1, 4)):
            self.depend(package, name, self.condition(package), runs)
        libraries = [name for name in self.earlier(package, LIBRARY) if name.startswith("py-")]
        for name in self.popular(libraries, self.random.randint(2, 9)):
            text, holds = self.condition(package)
            if self.random.random() < 0.15:  # as where a backport is needed for an old Python
                is_new = self.random.random() < 0.5
                below = self.range_of(self.packages["python"], is_new)
                text, holds = (text + " ^python@" + below).strip(), holds and is_new
            self.depend(package, name, (text, holds), runs)
        if self.random.random() < 0.15:
            core = [name for name in self.layers[CORE] if name not in self.provided and not name.startswith("py-")]
            self.depend(package, self.popular(core, 1)[0], self.condition(package))

    def add_library_depends(self, package):
        self.add_build_tools(package)
        if "python" in package.variants:
            with_python = "+python", package.variants["python"].chosen == "true"
            self.depend(package, "python", with_python)
            if self.random.random() < 0.5 and package.layer > CORE:
                self.depend(package, "py-numpy", with_python, '("build", "run")')
        for name in self.popular(self.layers[SYSTEM], self.random.randint(1, 4)):
            self.depend(package, name, self.condition(package))
        if "mpi" in package.variants:
            self.depend(package, "mpi", ("+mpi", True), asks="@3:" if self.random.random() < 0.2 else "")
        if "cuda" in package.variants:
            self.depend(package, "cuda", ("+cuda", False))
        if "lapack" in package.variants or self.random.random() < 0.2:
            when = self.condition(package)
            for name in ("blas", "lapack"):
                self.depend(package, name, when)
        for name, share in (("zlib-api", 0.4), ("fftw-api@3", 0.08), ("jpeg", 0.06), ("gl", 0.05), ("tbb", 0.04), ("scalapack-api", 0.04),
                            ("uuid", 0.04), ("iconv", 0.04)):
            if self.random.random() < share:
                self.depend(package, name, self.condition(package))
        core = [name for name in self.earlier(package, CORE) if name not in self.provided and not name.startswith("py-")]
        for name in self.popular(core, self.random.randint(2, 9) if package.layer == APPLICATION else self.random.randint(1, 6)):
            self.depend_on_core(package, name)
        libraries = [name for name in self.earlier(package, LIBRARY) if not name.startswith("py-")]
        for name in self.popular(libraries, self.random.randint(0, 5 if package.layer == APPLICATION else 3)):
            if package.layer >= LIBRARY:
                self.depend(package, name, self.condition(package))

    def depend_on_core(self, package, name):
        """A dependency that hands `mpi` down, where both have it."""
        when = self.condition(package)
        if "mpi" not in package.variants or "mpi" not in self.packages[name].variants:
            return self.depend(package, name, when)
        asks = self.asked(name, when[1])
        if "+mpi" in when[0] or "~mpi" in when[0] or " %" in when[0]:
            return self.depend(package, name, when, asks=asks)
        with_mpi = re.sub(r"^(@\S+)\s*", r"\1", when[0]) + "+mpi"
        self.depend(package, name, (with_mpi, when[1]), asks=asks + "+mpi")
        if self.random.random() < 0.6:
            self.depend(package, name, ("~mpi", False), asks="~mpi")

    def add_cycle(self, package):
        """Now and then what could close a cycle, as between cmake and curl."""
        if package.layer > CORE or package.is_python or self.random.random() > 0.02 * (1 + package.layer):
            return
        later = [name for layer in (SYSTEM, TOOL, CORE) for name in self.layers[layer]
                 if self.place[name] > self.place[package.name] and not name.startswith("py-")]
        flags = package.flags("false")
        if later and flags:
            self.depend(package, self.random.choice(later), ("+" + self.random.choice(flags), False))
