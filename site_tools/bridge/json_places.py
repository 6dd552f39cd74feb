"""Where in the text of a JSON file a pointer leads, and why a text is no JSON for the program.

Walks along one pointer; what stands beside its way is passed over by Python's own reader, so large files take no long.
"""
import json
import re
from dataclasses import dataclass
from json.decoder import scanstring  # type: ignore[attr-defined]
from typing import Any, Optional

DEEPEST = 127
BLANK = re.compile(r"[ \t\r\n]*")
READER = json.JSONDecoder()


@dataclass(frozen=True)
class Found:
    """Where a pointer leads: the offset of the sign, whether it leads there at all, and the last key on its way."""

    offset: int
    is_there: bool
    key: str


def past_blank(text: str, at: int) -> int:
    """The offset of the next sign that is not blank."""
    found = BLANK.match(text, at)
    return found.end() if found else at


def past_value(text: str, at: int) -> int:
    """The offset behind a value."""
    return READER.raw_decode(text, at)[1]


def in_object(text: str, at: int, key: str) -> Optional[tuple[int, int]]:
    """The offsets of a key of the object at an offset, and of its value; the last of several counts."""
    found = None
    at = past_blank(text, at + 1)
    while text[at] == '"':
        name, behind = scanstring(text, at + 1, False)
        value = past_blank(text, past_blank(text, behind) + 1)
        if name == key:
            found = (at, value)
        at = past_blank(text, past_value(text, value))
        if text[at] != ",":
            break
        at = past_blank(text, at + 1)
    return found


def in_list(text: str, at: int, number: int) -> Optional[tuple[int, int]]:
    """The offset of an entry of the list at an offset, twice."""
    at = past_blank(text, at + 1)
    for _ in range(number):
        if text[at] == "]":
            return None
        at = past_blank(text, past_value(text, at))
        if text[at] != ",":
            return None
        at = past_blank(text, at + 1)
    return None if text[at] == "]" else (at, at)


def find(text: str, pointer: str, is_key: bool = False) -> Optional[Found]:
    """Where an RFC 6901 pointer leads, as far as it does; at the key and not the value where that is asked for."""
    try:
        at, key, place = past_blank(text, 0), "", 0
        for part in pointer.split("/")[1:]:
            key = part.replace("~1", "/").replace("~0", "~")
            is_number = text[at] == "[" and key.isdigit() and len(key) < 10
            step = in_object(text, at, key) if text[at] == "{" else in_list(text, at, int(key)) if is_number else None
            if step is None:
                return Found(at, False, key)
            place, at = step
        return Found(place if is_key and key else at, True, key)
    except (ValueError, IndexError, RecursionError):
        return None


def why_no_json(data: bytes) -> tuple[int, str]:
    """Why bytes are no JSON for the program, with the place in bytes."""
    try:
        text = data.decode("utf-8")
    except UnicodeDecodeError as fault:
        return fault.start, "the file is not UTF-8"
    try:
        json.loads(text, parse_constant=refuse_constant)
    except json.JSONDecodeError as fault:
        return len(text[: fault.pos].encode()), fault.msg[:1].lower() + fault.msg[1:]
    except RecursionError:
        return 0, f"lists and objects nest deeper than {DEEPEST}"
    except ValueError as fault:
        return 0, str(fault)
    return odd_json(text)


def refuse_constant(name: str) -> Any:
    """Python takes these, and JSON has them not."""
    raise ValueError(f"`{name}` is no JSON")


def odd_json(text: str) -> tuple[int, str]:
    """What Python takes as JSON and the program does not: depth, large numbers, lone halves of signs."""
    depth, why = 0, ""
    for found in re.finditer(r'"(?:[^"\\]|\\.)*"|[\[\]{}]|-?[0-9][0-9.eE+-]*', text):
        sign = found.group()
        depth += (sign in "[{") - (sign in "]}") if len(sign) == 1 else 0
        if depth > DEEPEST:
            why = f"lists and objects nest deeper than {DEEPEST}"
        elif sign[0] not in '"[]{}' and float(sign) in (float("inf"), float("-inf")):
            why = "the number is too large"
        elif sign[0] == '"' and re.search(r"\\u[dD][89a-fA-F]", sign) and re.search(r"[\ud800-\udfff]", json.loads(sign)):
            why = "half of a pair of surrogates stands alone"
        if why:
            return len(text[: found.start()].encode("utf-8", "replace")), why
    return 0, "it is no JSON text"
