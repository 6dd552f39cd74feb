"""Records of nodes: their canonical text and their hash, as docs/formats/lock-file.md has them.

Computes hashes; never takes one on trust.
"""
import base64
import hashlib
import json
from typing import Any, Collection

from . import signs

KINDS = ("build", "link", "run")
KEYS = ("compiler", "dependencies", "external", "name", "os", "target", "variants", "version")
Record = dict[str, Any]


def compact(value: Any) -> str:
    """Compact JSON with the keys in order."""
    return json.dumps(value, separators=(",", ":"), sort_keys=True, ensure_ascii=False)


def canonical(node: Record) -> str:
    """The canonical text of a record, or of a node of a lock file."""
    record = {key: node[key] for key in KEYS}
    variants = node["variants"].items()
    record["variants"] = {name: sorted(map(signs.as_value, values)) for name, values in variants}
    children = sorted(node["dependencies"], key=lambda child: child["hash"])
    record["dependencies"] = [dependency(child["hash"], child["kinds"], child.get("virtuals", [])) for child in children]
    return compact(record)


def dependency(hash: str, kinds: Collection[str], virtuals: Collection[str]) -> Record:
    """A dependency as it is written: kinds and virtuals in order, and no key for virtuals where there are none."""
    named = {"virtuals": sorted(virtuals)} if virtuals else {}
    return {"hash": hash, "kinds": [kind for kind in KINDS if kind in kinds], **named}


def hash_of(node: Record) -> str:
    """The hash of a record: the first 20 bytes of SHA-256, in base 32, in small letters."""
    digest = hashlib.sha256(canonical(node).encode()).digest()[:20]
    return base64.b32encode(digest).decode().lower()
