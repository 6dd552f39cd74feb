"""JSON files, read whole; what is no JSON, too deep or too large is refused by `ValueError`."""
import json
from pathlib import Path
from typing import Any

MOST_BYTES = 512 * 1024 * 1024


def refuse(text: str) -> None:
    """Refuses `NaN` and `Infinity`, which Python's reader takes and JSON has not."""
    raise ValueError(f"no JSON: {text}")


def read(path: Path) -> Any:
    """The value of a file."""
    if not path.is_file():
        raise ValueError("no regular file" if path.exists() else "no such file")
    if path.stat().st_size > MOST_BYTES:
        raise ValueError(f"more than {MOST_BYTES} bytes")
    try:
        return json.loads(path.read_bytes().decode("utf-8"), parse_constant=refuse)
    except RecursionError as fault:
        raise ValueError("lists and objects nest too deep") from fault
    except MemoryError as fault:
        raise ValueError("more than the memory holds") from fault
