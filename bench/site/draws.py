"""A package of a made repository, and what is drawn for one: versions, ranges of them, conditions."""
from dataclasses import dataclass, field

SYSTEM, TOOL, CORE, LIBRARY, APPLICATION = range(5)


@dataclass
class Variant:
    values: list  # true and false where it is a flag
    default: str
    chosen: str
    is_flag: bool = True
    is_multi: bool = False
    when: str = ""


@dataclass
class Package:
    name: str
    layer: int
    is_python: bool
    versions: list  # triples of numbers, the newest first
    chosen: int  # the place of the planted one
    variants: dict = field(default_factory=dict)
    depends: list = field(default_factory=list)  # (name, what is asked of it, condition, kinds, whether the condition holds)
    conflicts: list = field(default_factory=list)  # (spec, condition)
    requires: list = field(default_factory=list)  # (spec, condition)
    provides: list = field(default_factory=list)  # (name with versions, condition)

    @property
    def version(self):
        return self.versions[self.chosen]

    def flags(self, value=None):
        return [name for name, variant in self.variants.items() if variant.is_flag and value in (None, variant.chosen)]


def version_text(version):
    return ".".join(map(str, version))


def signed(flag, value):
    return ("+" if value == "true" else "~") + flag


def other(value):
    return "false" if value == "true" else "true"


class Draws:
    """Draws from `random`. What is said of holding is of the planted graph."""

    def new_versions(self, count):
        version, found = [self.random.randint(0, 3), self.random.randint(0, 9), 0], []
        for _ in range(count):
            found.append(tuple(version))
            step = self.random.random()
            place = 0 if step < 0.1 else 1 if step < 0.6 else 2
            version[place] += 1
            version[place + 1:] = [0] * (2 - place)
        return found[::-1]

    def cut(self, version):
        return version_text(version[:self.random.choice([2, 2, 3])])

    def low(self, package, holds):
        """A lower end that the planted version is above, or not."""
        last = len(package.versions) - 1
        places = range(package.chosen, last + 1) if holds else range(0, max(1, package.chosen))
        version = package.versions[self.random.choice(places)]
        return self.cut(version) if holds else version_text(version)

    def range_of(self, package, holds):
        """A range of versions, and whether the planted one is in it."""
        if not holds and package.chosen == 0:  # nothing is above the newest version: a range below it
            return ":%s" % version_text(package.versions[self.random.randrange(1, len(package.versions))])
        draw = self.random.random()
        if not holds or draw < 0.8:
            return "%s:" % self.low(package, holds)
        high = self.cut(package.versions[self.random.randint(0, package.chosen)])
        return ":%s" % high if draw < 0.9 else "%s:%s" % (version_text(package.versions[-1]), high)

    def condition(self, package):
        """A condition at the package as a text, and whether it holds in the planted graph."""
        draw = self.random.random()
        if draw < 0.35:
            return "", True
        holds = self.random.random() < 0.6
        flags = package.flags()
        if draw < 0.6 or not flags:
            text = "@" + self.range_of(package, holds)
        else:
            flag = self.random.choice(flags)
            value = package.variants[flag].chosen
            text = signed(flag, value if holds else other(value))
            if self.random.random() < 0.25:
                with_range = self.random.random() < 0.7
                text = "@%s %s" % (self.range_of(package, with_range), text)
                holds = holds and with_range
        if self.random.random() < 0.05:
            text, holds = text + " %gcc@:11", False
        return text, holds

    def popular(self, those, count):
        """Some of the list, the first ones far more often."""
        found, tries = {}, 0
        while len(found) < min(count, len(those)) and tries < 20 * count:
            tries += 1
            found[those[min(len(those) - 1, int(len(those) ** self.random.random()) - 1)]] = None
        return list(found)
