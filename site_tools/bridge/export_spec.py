"""`export_spec`: a lock file as specs that Spack takes, with all that was chosen pinned.

Writes spec texts, and not Spack's JSON of a concrete spec: that has a package hash, the features of a target and a hash
over these, which a lock file has not, so such a file would claim what nobody computed. Spack concretizes the text anew,
and can choose nothing else but what the text does not say.
"""
import argparse
import sys
from pathlib import Path
from typing import Optional

from . import lock, node_texts


def read_table(path: Path) -> dict[str, str]:
    """The table of import_installed from new hashes to Spack's."""
    rows = [line.split("\t") for line in path.read_text("utf-8").splitlines()]
    return {row[1]: row[0] for row in rows if len(row) == 3}


def pinned(node: lock.Node, old_hashes: dict[str, str]) -> str:
    """A node as a spec; an installed one by Spack's own hash where the table has it."""
    if node["origin"] == "installed" and node["hash"] in old_hashes:
        return f"{node['name']}/{old_hashes[node['hash']]}"
    return node_texts.spec_text(node)


def below(found: lock.Lock, hash: str) -> list[lock.Node]:
    """All nodes that a node leads to, by name."""
    seen: dict[str, lock.Node] = {}
    todo = [found.nodes[hash]]
    while todo:
        for child, _ in found.children(todo.pop()):
            if child["hash"] not in seen:
                seen[child["hash"]] = child
                todo.append(child)
    return sorted(seen.values(), key=lambda node: node["name"])


def text_of(found: lock.Lock, old_hashes: dict[str, str]) -> str:
    """A line for each root: its spec with all below it."""
    lines = []
    for _, hash in found.roots:
        words = [pinned(found.nodes[hash], old_hashes)] + ["^" + pinned(node, old_hashes) for node in below(found, hash)]
        lines.append(" ".join(words))
    return "\n".join(lines) + "\n"


def environment_text(found: lock.Lock, old_hashes: dict[str, str]) -> str:
    """The same as a spack.yaml."""
    specs = "".join(f"  - '{line}'\n" for line in text_of(found, old_hashes).splitlines())
    return f"spack:\n  specs:\n{specs}  concretizer:\n    unify: true\n"


def main(words: Optional[list[str]] = None) -> int:
    """Exports a lock file: 0 where it was written, 2 where it is none."""
    parser = argparse.ArgumentParser(prog="export_spec", description=__doc__)
    parser.add_argument("lock", type=Path, metavar="LOCK", help="a lock file")
    parser.add_argument("--hashes", type=Path, metavar="TABLE", help="import_installed's table: installed nodes go by Spack's hash")
    parser.add_argument("--environment", action="store_true", help="write a spack.yaml")
    given = parser.parse_args(words)
    try:
        found = lock.read(given.lock)
        old_hashes = read_table(given.hashes) if given.hashes else {}
    except (OSError, lock.NoLock) as fault:
        print(f"export_spec: {fault}", file=sys.stderr)
        return 2
    print((environment_text if given.environment else text_of)(found, old_hashes), end="")
    return 0
