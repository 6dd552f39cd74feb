"""A second reading of recipes, specs, settings and databases, apart from the program's: recipes by Python's own parser.

Only right files are read; what is wrong in one ends in some exception or is passed over, since the program refuses it.
"""
import ast
import json
import os
import re
import sys

sys.path.insert(0, os.path.dirname(os.path.dirname(os.path.abspath(__file__))))
from spec_fronts import A_NAME, ANYWHERE, BEHIND_WHITE, BLANKS, NAME  # noqa: E402

KINDS = ("build", "link", "run")


def truth(text):
    return {"True": "true", "False": "false"}.get(text, text)


# ---- specs


class Part:
    """A package's name and what is asked of it; None where nothing is written."""

    def __init__(self):
        self.name = self.versions = self.compiler = self.platform = self.os = self.targets = None
        self.variants = {}

    def is_bare(self):
        return not self.variants and {self.versions, self.compiler, self.platform, self.os, self.targets} == {None}


def constrain(part, sign, match):
    text = match.group()
    if sign == "@":
        part.versions = tuple(text[1:].split(","))
    elif sign == "+":
        part.variants[text[1:]] = frozenset(["true" if text[0] == "+" else "false"])
    elif sign == "%":
        name, _, versions = text[1:].partition("@")
        part.compiler = (name, tuple(versions.split(",")) if versions else None)
    else:
        key, _, value = text.partition("=")
        if key == "arch":
            part.platform, part.os, target = map(truth, value.split("-", 2))
            part.targets = (target,)
        elif key == "target":
            part.targets = tuple(map(truth, value.split(",")))
        elif key in ("os", "platform"):
            setattr(part, key, truth(value))
        else:
            part.variants[key] = frozenset(map(truth, value.split(",")))


def read_specs(text):
    """Lists of parts, one for each spec: its top and those after `^`. A condition is one spec, or none where it is blank."""
    specs, after_caret, gap = [], False, True
    place = BLANKS.match(text).end()
    while place < len(text):
        name = A_NAME.match(text, place) if gap or after_caret else None
        if name:
            part = Part()
            part.name = name.group()
            if after_caret:
                specs[-1].append(part)
            else:
                specs.append([part])
            after_caret, end = False, name.end()
        else:
            if not specs:
                specs.append([Part()])
            if text[place] == "^":
                after_caret, end = True, place + 1
            else:
                rows = ANYWHERE + (BEHIND_WHITE if gap else [])
                sign, match = next((s, m) for s, m in ((s, row.match(text, place)) for s, row in rows) if m)
                constrain(specs[-1][-1], sign, match)
                end = match.end()
        place = BLANKS.match(text, end).end()
        gap = place > end
    return specs


# ---- recipes


class Recipe:
    """The directives of a file in their order, each with its condition, a list of specs."""

    def __init__(self):
        self.versions = []  # (text, preferred, deprecated)
        self.variants = []  # (name, is multi, values, default values, condition)
        self.depends = []  # (part, kinds, condition)
        self.provides = []  # (name, versions or None, condition)
        self.conflicts = []  # (spec, condition)
        self.requires = []  # (specs, is one_of, condition)


def scalar_text(value):
    return truth(str(value))


def many(value):
    return list(value) if isinstance(value, (tuple, list)) else [value]


def variant_row(name, keywords, when):
    default, multi = keywords["default"], keywords.get("multi", False)
    if "values" not in keywords:
        return name, False, frozenset(["true", "false"]), frozenset([str(default).lower()]), when
    values = frozenset(map(scalar_text, many(keywords["values"])))
    texts = default.split(",") if multi and isinstance(default, str) else many(default)
    return name, multi, values, frozenset(scalar_text(text) for text in texts if text is not None), when


def add_directive(recipe, word, values, keywords, when):
    if keywords.get("when") is not None:
        when = when + read_specs(keywords["when"])
    if word == "version":
        recipe.versions.append((str(values[0]), keywords.get("preferred", False), keywords.get("deprecated", False)))
    elif word == "variant":
        recipe.variants.append(variant_row(str(values[0]), keywords, when))
    elif word == "depends_on":
        kinds = frozenset(many(keywords.get("type", ("build", "link")))) & frozenset(KINDS)
        part = read_specs(str(values[0]))[0][0]
        if kinds and not (part.is_bare() and part.name in ("c", "cxx", "fortran")):
            recipe.depends.append((part, kinds, when))
    elif word == "provides":
        for value in values:
            part = read_specs(str(value))[0][0]
            recipe.provides.append((part.name, part.versions, when))
    elif word == "conflicts":
        recipe.conflicts.append((one_spec(values[0]), when))
    elif word == "requires":
        one_of = keywords.get("policy", "one_of") == "one_of"
        recipe.requires.append(([one_spec(value) for value in values], one_of, when))


def one_spec(text):
    """The spec of a condition's text; a blank one asks nothing."""
    return (read_specs(str(text)) or [[Part()]])[0]


READ_KEYWORDS = {
    "version": ("preferred", "deprecated"),
    "variant": ("default", "values", "multi", "when"),
    "depends_on": ("type", "when"),
    "provides": ("when",),
    "conflicts": ("when",),
    "requires": ("policy", "when"),
}


def add_block(recipe, statements, when):
    for statement in statements:
        if isinstance(statement, ast.With):
            text = ast.literal_eval(statement.items[0].context_expr.args[0])
            add_block(recipe, statement.body, when + read_specs(text))
        elif isinstance(statement, ast.Expr) and isinstance(statement.value, ast.Call):
            call = statement.value
            word = getattr(call.func, "id", None)
            if word in READ_KEYWORDS:
                values = call.args[:1] if word == "version" else call.args
                keywords = {k.arg: ast.literal_eval(k.value) for k in call.keywords if k.arg in READ_KEYWORDS[word]}
                add_directive(recipe, word, [ast.literal_eval(value) for value in values], keywords, when)


def read_recipe(text):
    recipe = Recipe()
    for statement in ast.parse(text).body:
        if isinstance(statement, ast.ClassDef) and not statement.name.endswith("Builder"):
            add_block(recipe, statement.body, [])
    return recipe


def read_repository(folder):
    packages = os.path.join(folder, "packages")
    recipes = {}
    for name in sorted(os.listdir(packages)):
        path = os.path.join(packages, name, "package.py")
        if re.fullmatch(NAME, name) and os.path.exists(path):
            with open(path, encoding="utf-8") as file:
                recipes[name] = read_recipe(file.read())
    return recipes


# ---- settings


class External:
    """An entry of what the system has: the part that is written, with one version and one target at most."""

    def __init__(self, spec):
        part = read_specs(spec)[0][0]
        self.version = part.versions[0].lstrip("=")
        self.variants, self.os = part.variants, part.os
        self.compiler = part.compiler and (part.compiler[0], part.compiler[1][0].lstrip("="))
        self.target = part.targets and part.targets[0]


class Settings:
    def __init__(self, given):
        self.platform = truth(given.get("platform", "linux"))
        self.os = [truth(name) for name in given.get("os", ["ubuntu22.04"])]
        targets = given.get("targets", [{"name": "x86_64", "parents": []}])
        self.targets = {truth(entry["name"]): [truth(parent) for parent in entry["parents"]] for entry in targets}
        # (compiler, supported systems or None, supported targets or None)
        compilers = given.get("compilers", [{"name": "gcc", "version": "12.3.0"}])
        self.compilers = [((e["name"], e["version"]), e.get("os"), e.get("targets")) for e in compilers]
        self.providers = given.get("providers", {})
        self.packages = given.get("packages", {})

    def is_buildable(self, name):
        return self.packages.get(name, {}).get("buildable", True)

    def preferred(self, name):
        return [tuple(text.split(",")) for text in self.packages.get(name, {}).get("versions", [])]

    def required(self, name):
        """What is required of each node of a package, as a recipe's `requires` is read."""
        value = self.packages.get(name, {}).get("require", [])
        for item in [value] if isinstance(value, str) else value:
            entry = {"any_of": [item]} if isinstance(item, str) else item
            texts = entry.get("any_of") or entry["one_of"]
            yield [one_spec(text) for text in texts], "one_of" in entry, read_specs(entry.get("when", ""))

    def externals(self, name):
        return [External(entry["spec"]) for entry in self.packages.get(name, {}).get("externals", [])]


def read_settings(path):
    if path == "-":
        return Settings({})
    with open(path, encoding="utf-8") as file:
        return Settings(json.load(file))


# ---- databases


class Record:
    def __init__(self, given):
        self.hash, self.name, self.version = given["hash"], given["name"], given["version"]
        self.variants = {name: frozenset(map(truth, values)) for name, values in given["variants"].items()}
        compiler = given["compiler"]
        self.compiler = compiler and (compiler["name"], compiler["version"])
        self.os, self.target = truth(given["os"]), truth(given["target"])
        # the link and run children, each with these of its kinds and with what it provides
        kept = [(child["hash"], frozenset(child["kinds"]) & {"link", "run"}, child.get("virtuals", [])) for child in given["dependencies"]]
        self.children = [(child, kinds, virtuals) for child, kinds, virtuals in kept if kinds]


def read_database(path):
    if path == "-":
        return []
    with open(path, encoding="utf-8") as file:
        return [Record(given) for given in json.load(file)["records"]]
