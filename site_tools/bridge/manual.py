"""`make_manual`: the man page, made of the documents.

Takes docs/formats/command-line.md, texts.md and specs.md, and docs/FORMATS.md as they are, and turns their Markdown
(headings, paragraphs, lists, tables, fenced text) into the signs of man. It adds no sentence of its own but the head.
"""
import re
from pathlib import Path
from typing import Iterator, Optional

HEAD = ('.\\" Made by site_tools/make_manual of docs/; edit these, and make it anew.', '.TH SPACK_CONCRETIZE 1 "" "Tarosickle" ""')
NAME = "spack_concretize \\- finds the best build graph of specs over a repository of recipes, or judges one"


def plain(text: str) -> str:
    """A line of text with man's signs: code in bold, stress in italics, links as their text."""
    text = text.replace("\\", "\\e").replace("-", "\\-")
    text = re.sub(r"\[([^\]]*)\]\([^)]*\)", r"\1", text)
    text = re.sub(r"`([^`]*)`", r"\\fB\1\\fR", text)
    text = re.sub(r"(?<![\w*])\*([^*]+)\*(?!\w)", r"\\fI\1\\fR", text)
    return "\\&" + text if text[:1] in (".", "'") else text


def cells(row: str) -> list[str]:
    """The cells of a table's row."""
    return [cell.strip() for cell in re.split(r"(?<!\\)\|", row.strip().strip("|"))]


def table_lines(rows: list[str]) -> Iterator[str]:
    """A table as a list of terms; a table of rules and definitions is for those who read the sources."""
    head = cells(rows[0])
    if head[0] == "Rule":
        return
    for row in rows[2:]:
        first, *rest = cells(row)
        yield ".TP"
        yield plain(first)
        yield plain("; ".join(each for each in rest if each))


def blocks(text: str) -> Iterator[list[str]]:
    """A document's blocks: lines up to a blank one; fenced text is one block."""
    block: list[str] = []
    fenced = False
    for line in text.splitlines() + [""]:
        fence = line.startswith("```")
        if fence and not fenced and block:
            yield block
            block = []
        fenced = fenced != fence
        if line.strip() or fenced:
            block.append(line)
        if not fenced and (fence or not line.strip()) and block:
            yield block
            block = []


def item_lines(block: list[str]) -> Iterator[str]:
    """A list, each entry with its sign; lines that go on belong to the entry before."""
    entries: list[str] = []
    for line in block:
        if re.match(r"(\d+\.|-) ", line):
            entries.append(line)
        else:
            entries[-1] += " " + line.strip()
    for entry in entries:
        sign, text = entry.split(" ", 1)
        yield f".IP {sign if sign != '-' else '*'} 4"
        yield plain(text)


def block_lines(block: list[str]) -> Iterator[str]:
    """One block."""
    first = block[0]
    if first.startswith("```"):
        yield from (".PP", ".RS 4", ".nf", *("\\&" + line.replace("\\", "\\e").replace("-", "\\-") for line in block[1:-1]), ".fi", ".RE")
    elif first.startswith("|"):
        yield from table_lines(block)
    elif re.match(r"(1\.|-) ", first):
        yield from item_lines(block)
    elif first.startswith("## "):
        yield f".SS {plain(first[3:])}"
    elif not first.startswith("#") and not first.startswith("`spack_concretize "):
        yield ".PP"
        yield plain(" ".join(line.strip() for line in block))


def section(title: str, path: Path, stop: Optional[str] = None) -> Iterator[str]:
    """A document as a section, up to the block that begins with `stop`."""
    yield f".SH {title}"
    for block in blocks(path.read_text("utf-8")):
        if stop and block[0].startswith(stop):
            return
        yield from block_lines(block)


def synopsis(path: Path) -> Iterator[str]:
    """The forms of the command, a line each."""
    for found in re.findall(r"^`spack_concretize ([a-z_]+) ([^`]*)`", path.read_text("utf-8"), re.M):
        yield from (".PP", f"\\fBspack_concretize {found[0]}\\fR {plain(found[1])}")


def page(top: Path) -> str:
    """The whole man page."""
    docs = top / "docs"
    lines = [*HEAD, ".SH NAME", NAME, ".SH SYNOPSIS", *synopsis(docs / "formats" / "command-line.md")]
    lines += section("DESCRIPTION", docs / "formats" / "command-line.md")
    lines += section("OUTPUT AND EXIT STATUS", docs / "formats" / "texts.md")
    lines += section("SPECS", docs / "formats" / "specs.md")
    lines += section("FORMATS", docs / "FORMATS.md")
    return "\n".join(lines) + "\n"
