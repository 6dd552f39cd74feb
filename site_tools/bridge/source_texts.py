"""Parts of a file as they are written, found by the places that Python's parser gives."""
import ast


class SourceText:
    """A file's lines in UTF-8, cut once for all parts."""

    def __init__(self, text: str) -> None:
        self.lines = [line + b"\n" for line in cut(text)]

    def part(self, node: ast.AST) -> str:
        """The text of a node on one line; empty where it has no place."""
        first, last = getattr(node, "lineno", 0), getattr(node, "end_lineno", 0) or 0
        if not 0 < first <= last <= len(self.lines):
            return ""
        lines = self.lines[first - 1 : last]
        lines[-1] = lines[-1][: node.end_col_offset]  # type: ignore[attr-defined]
        lines[0] = lines[0][node.col_offset :]  # type: ignore[attr-defined]
        return " ".join(b"".join(lines).decode("utf-8", "replace").split())


def cut(text: str) -> list[bytes]:
    """The lines as Python's parser counts them: at line feeds and returns, and nowhere else."""
    return [line.encode() for line in text.replace("\r\n", "\n").replace("\r", "\n").split("\n")]
