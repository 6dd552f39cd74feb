"""Nodes as texts, in the words of Spack's specs."""
from typing import Any

from .spec_text import variant_text

MARKS = {"built": " - ", "external": "[e]", "installed": "[+]"}
LETTERS = (("build", "b"), ("link", "l"), ("run", "r"))


def compiler_text(node: dict[str, Any], sign: str = "") -> str:
    """`gcc@12.3.0`; empty without a compiler."""
    compiler = node["compiler"]
    return f"{compiler['name']}@{sign}{compiler['version']}" if compiler else ""


def variants_text(node: dict[str, Any]) -> str:
    """The variants, with a blank between."""
    return " ".join(variant_text(name, tuple(values)) for name, values in sorted(node["variants"].items()))


def spec_text(node: dict[str, Any], sign: str = "=") -> str:
    """All that is known of a node, as a spec."""
    compiler = compiler_text(node, sign)
    words = [f"{node['name']}@{sign}{node['version']}", variants_text(node), f"%{compiler}" if compiler else ""]
    words += [f"os={node['os']}", f"target={node['target']}"]
    return " ".join(word for word in words if word)


def kinds_text(kinds: list[str]) -> str:
    """`[bl ]`: the kinds of an edge as letters."""
    return "[" + "".join(letter if kind in kinds else " " for kind, letter in LETTERS) + "]"


def below_sign(virtuals: list[str]) -> str:
    """What stands before a child: `^`, or `^mpi=` where it provides mpi to its parent."""
    return "^" + (",".join(virtuals) + "=" if virtuals else "")


def edge_text(kinds: list[str], virtuals: list[str]) -> str:
    """The kinds of an edge, and what its child provides there: `build, link as mpi`."""
    return ", ".join(kinds) + (f" as {', '.join(virtuals)}" if virtuals else "")


def origin_text(node: dict[str, Any]) -> str:
    """Where a node comes from, in words."""
    if node["origin"] == "external":
        return f"external {node['entry']}, at {node['external']}"
    if node["origin"] == "installed":
        return f"installed, at {node['external']}" if node["external"] else "installed"
    return "to build"
