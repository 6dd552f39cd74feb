"""The externals of settings, as the nodes that the program completes them to.

Finds which entry a node of Spack's is, by its prefix, version, target and OS, and gives the node of that entry.
"""
from pathlib import Path
from typing import Any, Optional

from . import versions
from .recipe_files import Repository, class_name
from .recipe_writer import governed
from .rows import Cannot, VariantRow
from .settings_externals import external_part
from .spec_text import Part


class Entries:
    """The externals of a site, with the recipes that complete them."""

    def __init__(self, settings: Any, repo: Optional[Path]) -> None:
        self.settings = settings if isinstance(settings, dict) else {}
        self.repository = Repository(repo, [], "linux") if repo else None

    def completed(self, record: dict, notes: list[str]) -> tuple[int, dict]:
        """The place of a node among its package's externals, and the node of that entry; `Cannot` where it is none of them."""
        listed = self.settings.get("packages", {}).get(record["name"], {}).get("externals", [])
        systems, targets = self.settings.get("os", [""]), [each["name"] for each in self.settings.get("targets", [])]
        for place, entry in enumerate(listed):
            part = external_part(entry["spec"])
            if part is None or entry["prefix"] != record["external"] or versions.single(part.versions) != record["version"]:
                continue
            target = part.targets[0] if part.targets else targets[0] if targets else ""
            if target == record["target"] and (part.os or systems[0]) == record["os"]:
                return place, self.node(part, record, notes)
        raise Cannot("an external that the settings have not", f"{record['name']}@{record['version']} at {record['external']}")

    def node(self, part: Part, record: dict, notes: list[str]) -> dict:
        """The node of an entry: what is not written is the default of the recipe's last definition."""
        variants = {name: list(values) for name, values in self.defaults(record["name"]).items()}
        variants.update({name: list(values) for name, values in part.variants.items()})
        sorted_variants = {name: sorted(variants[name]) for name in sorted(variants)}
        if sorted_variants != record["variants"] and self.repository:
            notes.append(f"{record['name']}: an external with the variants that its entry has, and not Spack's")
        compiler = part.compiler and {"name": part.compiler[0], "version": versions.single(part.compiler[1])}
        return {**record, "variants": sorted_variants, "compiler": compiler or None, "dependencies": []}

    def defaults(self, name: str) -> dict[str, tuple[str, ...]]:
        """The defaults of a recipe's variants."""
        if self.repository is None or name not in self.repository.folders:
            return {}
        module = self.repository.module(self.repository.folders[name])
        rows = governed(self.repository.class_rows(module, class_name(name)).rows)
        return {row.name: row.row.choice.default for row in rows if isinstance(row, VariantRow) and row.row.choice}
