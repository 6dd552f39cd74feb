#!/usr/bin/env python3
"""Writes the facts of one problem for profile.lp.

    bench/concretize/facts.py REPO SETTINGS DATABASE SPEC..

What sets of versions contain, which targets are in a range, which names a graph may have and what weighs how much is computed here.
A condition at a package is a number, with the tests that it makes of the node (`asks`) and the parts after `^` (`asks_below`); one that
no node can meet has none, and what stands under it is left out.
"""
import sys

from conditions import Conditions, compiler_term, quoted
from names import Problem
from reading import read_database, read_repository, read_settings, read_specs
from versions import weights


class Facts(Conditions):
    """The facts of a problem, package by package."""

    # ---- a package

    def options(self, name):
        settings = self.problem.settings
        if self.names.is_buildable[name]:
            self.fact("option", quoted(name), "build")
            for version, _, _ in self.problem.recipes[name].versions:
                self.fact("declared", quoted(name), quoted(version))
        for node in self.names.kept[name]:
            own = (quoted(name), node.term)
            self.fact("option", *own)
            self.fact("option_version", *own, quoted(node.version))
            self.fact("option_os", *own, quoted(node.os))
            self.fact("option_target", *own, quoted(node.target))
            if node.compiler:
                self.fact("option_compiler", *own, compiler_term(node.compiler))
            for variant, values in node.variants.items():
                for value in sorted(values):
                    self.fact("option_value", *own, quoted(variant), quoted(value))
            for child, term, kinds, virtuals in node.children:
                self.fact("option_child", *own, quoted(child), term)
                for kind in sorted(kinds):
                    self.fact("option_edge", *own, quoted(child), kind)
                for virtual in sorted(virtuals):
                    self.fact("option_provider", *own, quoted(virtual), quoted(child))
        recipe = self.problem.recipes.get(name)
        rows = recipe.versions if recipe else []
        places = weights(rows, settings.preferred(name))
        for version in self.names.attributes[name][0]:
            self.fact("version_weight", quoted(name), quoted(version), places.get(version, len(rows)))
        for version, _, is_deprecated in rows:
            if is_deprecated:
                self.fact("deprecated", quoted(name), quoted(version))

    def variants(self, name):
        """The definitions of each variant from the last one on that holds at each node, if there is one."""
        recipe = self.problem.recipes.get(name)
        rows = {}
        for place, (variant, is_multi, values, default, when) in enumerate(recipe.variants if recipe else ()):
            condition = self.condition(name, when)
            if condition is not None:
                before = [] if condition in self.always else rows.get(variant, [])
                rows[variant] = before + [(place, condition, is_multi, values, default)]
        for variant, those in rows.items():
            own = (quoted(name), quoted(variant))
            is_fixed = len(those) == 1 and those[0][1] in self.always
            self.fact("fixed" if is_fixed else "loose", *own, *those[0][:1] if is_fixed else ())
            for place, condition, is_multi, values, default in those:
                self.fact("definition", *own, place, condition)
                self.fact("multi" if is_multi else "single", quoted(name), place)
                for value in sorted(default):
                    self.fact("default", quoted(name), place, quoted(value))
                for value in sorted(values):
                    self.fact("allowed", quoted(name), place, quoted(value))
                    self.fact("possible_value", *own, quoted(value))

    def depends(self, name):
        for place, (part, kinds, when) in enumerate(self.directives(name, "depends")):
            condition, asked = self.condition(name, when), self.part(part)
            if condition is None:
                continue
            if asked is None:
                self.fact("hopeless", quoted(name), condition)
                continue
            self.fact("depends", quoted(name), place, condition, asked)
            for kind in sorted(kinds):
                self.fact("kind", quoted(name), place, kind)
                for target in self.targets(part.name) if condition in self.far else ():
                    self.fact("maybe_edge", quoted(name), quoted(target), kind)
            if self.problem.is_virtual(part.name):
                self.fact("to_virtual", quoted(name), place, quoted(part.name))
                self.virtuals[part.name] |= condition in self.far
            else:
                self.fact("to_package", quoted(name), place, quoted(part.name))

    def restrictions(self, name):
        for spec, when in self.directives(name, "conflicts"):
            condition = self.condition(name, [*when, spec])
            if condition is not None:
                self.fact("conflict", quoted(name), condition)
        self.requirements(name, "one_of", "any_of", self.directives(name, "requires"))
        self.requirements(name, "required_one", "required_any", self.problem.settings.required(name))

    def requirements(self, name, just_one, some, rows):
        for row, (specs, is_one_of, when) in enumerate(rows):
            condition = self.condition(name, when)
            if condition is None:
                continue
            requirement = self.number((some, name, row))
            self.fact(just_one if is_one_of else some, quoted(name), condition, requirement)
            for place, spec in enumerate(specs):
                held = self.condition(name, [spec])
                if held is not None:
                    self.fact("place", requirement, place, held)

    # ---- the whole

    def machine(self):
        settings = self.problem.settings
        for compiler, systems, targets in settings.compilers:
            self.fact("configured", compiler_term(compiler))
            for system in settings.os:
                if systems is not None and system not in systems:
                    self.fact("lacks_os", compiler_term(compiler), quoted(system))
            for target in settings.targets:
                if targets is not None and target not in targets:
                    self.fact("lacks_target", compiler_term(compiler), quoted(target))
        for system in settings.os:
            self.fact("machine_os", quoted(system))
        for target in settings.targets:
            self.fact("machine_target", quoted(target))
        compilers = [row[0] for row in settings.compilers]
        preferred = (compilers, settings.os, list(settings.targets))
        words = (("compiler", compiler_term), ("os", quoted), ("target", quoted))
        for place, (word, term), those in zip((2, 3, 4), words, preferred):
            used = dict.fromkeys(value for every in self.names.attributes.values() for value in every[place] if value)
            for value in used:
                weight = those.index(value) if value in those else len(those)
                self.fact(word + "_weight", term(value), weight)

    def providers(self):
        for virtual, is_free in self.virtuals.items():
            self.fact("free_virtual" if is_free else "plain_virtual", quoted(virtual))
            those = self.problem.settings.providers.get(virtual, [])
            for target in self.targets(virtual):
                any_list = self.offer(target, virtual, None)
                if any_list is not None:
                    self.fact("possible_provider", quoted(virtual), quoted(target), any_list)
                    weight = those.index(target) if target in those else len(those)
                    self.fact("provider_weight", quoted(virtual), quoted(target), weight)

    def roots(self):
        for spec in self.problem.roots:
            condition = self.condition(spec[0].name, [spec])
            self.fact("root", quoted(spec[0].name))
            if condition is None:
                self.fact("hopeless_root")
            else:
                self.fact("root_condition", condition)

    def add_ways(self):
        """The pairs of names between which a path may be asked for, or be part of one that is."""
        reached = self.names.reached
        for target in sorted({target for _, target in self.ways}):
            above = {name for name in self.names.next if target in reached(name)}
            starts = [name for name, other in self.ways if other == target]
            for between in sorted(above & set(starts).union(*map(reached, starts))):
                self.fact("way", quoted(between), quoted(target))

    def all(self):
        self.machine()
        for name in self.names.next:
            self.options(name)
            self.variants(name)
            self.depends(name)
            self.restrictions(name)
        self.roots()
        self.providers()
        self.add_ways()
        return "\n".join(self.lines) + "\n"


def facts(repository, settings, database, words):
    """The facts of a problem as text, of files and the words of its specs."""
    problem = Problem(read_repository(repository), read_settings(settings), read_database(database), read_specs(" ".join(words)))
    return Facts(problem).all()


def main():
    if len(sys.argv) < 5:
        sys.exit(__doc__.strip())
    sys.stdout.write(facts(*sys.argv[1:4], sys.argv[4:]))


if __name__ == "__main__":
    main()
