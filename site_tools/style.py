"""What the scripts of site_tools have to look like."""
import ast
from pathlib import Path
from typing import Iterator


def faults(path: Path) -> Iterator[tuple[str, str]]:
    """What is wrong with the looks of a script: each module and function says what it does, has types, and is short."""
    text = path.read_text("utf-8")
    tree = ast.parse(text)
    if not ast.get_docstring(tree):
        yield path.name, "has no docstring"
    if text.count("\n") > 300 or max(map(len, text.splitlines())) > 140:
        yield path.name, "is longer than 300 lines, or wider than 140 signs"
    for node in ast.walk(tree):
        if not isinstance(node, ast.FunctionDef):
            continue
        untyped = [each.arg for each in node.args.args if each.annotation is None and each.arg != "self"]
        if node.returns is None or untyped or (node.end_lineno or 0) - node.lineno >= 40:
            yield f"{path.name}:{node.lineno} {node.name}", "has no types, or is longer than 40 lines"
        if not ast.get_docstring(node) and not (node.name.startswith("__") and node.name.endswith("__")):
            yield f"{path.name}:{node.lineno} {node.name}", "has no docstring"
