"""What was left out of settings: where it stands, and what to do instead; and what was taken in other words."""
from dataclasses import dataclass, field
from typing import Any

from .yaml_texts import line_of


@dataclass
class Notes:
    """Lists that grow while files are read."""

    file: str = ""
    rows: list[tuple[str, int, str, str]] = field(default_factory=list)
    taken: list[tuple[str, int, str, str]] = field(default_factory=list)

    def leave_out(self, value: Any, what: str, why: str) -> None:
        """Lists something that the settings cannot say."""
        self.leave_out_line(line_of(value), what, why)

    def leave_out_line(self, line: int, what: str, why: str) -> None:
        """The same, by its line; what is already listed is not listed again."""
        row = (self.file, line, what, why)
        if row not in self.rows:
            self.rows.append(row)

    def take(self, value: Any, what: str, why: str) -> None:
        """Lists something that is said in other words."""
        self.taken.append((self.file, line_of(value), what, why))

    def lines(self, rows: list[tuple[str, int, str, str]]) -> list[str]:
        """Rows of a list as lines."""
        found = []
        for file, line, what, why in rows:
            found += [f"    {file}{f':{line}' if line else ''}: {what}", f"        {why}"]
        return found

    def text(self) -> str:
        """The report."""
        lines = [f"import_settings: {len(self.rows)} left out", *self.lines(self.rows)]
        lines += ["taken in other words", *self.lines(self.taken)] if self.taken else []
        return "\n".join(lines) + "\n"
