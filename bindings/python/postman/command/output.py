"""What the command prints: results on standard output, notes and progress on standard error."""

from __future__ import annotations

import os
import sys
from collections.abc import Iterable, Sequence
from math import inf

STYLES = {"bold": "1", "dim": "2", "red": "31", "green": "32", "yellow": "33"}


class Output:
    """Where results and notes go. Colours and progress bars are for terminals only."""

    def __init__(self, quiet: bool = False) -> None:
        self.quiet = quiet
        self.coloured = sys.stdout.isatty() and "NO_COLOR" not in os.environ and os.environ.get("TERM") != "dumb"
        self.progress = not quiet and sys.stderr.isatty() and os.environ.get("TERM") != "dumb"

    def result(self, text: str) -> None:
        """A line, or several, of the result."""
        print(text)

    def raw(self, text: str) -> None:
        """Text of the result that ends its own lines."""
        sys.stdout.write(text)

    def data(self, data: bytes) -> None:
        """Bytes of the result."""
        sys.stdout.flush()
        sys.stdout.buffer.write(data)

    def json(self, value: object) -> None:
        """The result as JSON: a line for each key of an object, and for each object of a list."""
        import json

        def compact(value: object) -> str:
            return json.dumps(value, ensure_ascii=False, allow_nan=False)

        def listed(value: object, indent: str) -> str:
            if isinstance(value, list) and value and isinstance(value[0], dict):
                return "[\n" + ",\n".join(f"{indent} {compact(item)}" for item in value) + f"\n{indent}]"
            return compact(value)

        if isinstance(value, dict):
            lines = [f" {compact(key)}: {listed(item, ' ')}" for key, item in value.items()]
            print("{\n" + ",\n".join(lines) + "\n}")
        else:
            print(listed(value, ""))

    def note(self, text: str) -> None:
        """Something worth knowing that is no result."""
        if not self.quiet:
            print(f"postman: {text}", file=sys.stderr)

    def style(self, text: str, style: str) -> str:
        """Text in a colour, on a terminal."""
        return f"\033[{STYLES[style]}m{text}\033[0m" if self.coloured else text

    def table(self, header: Sequence[str], rows: Iterable[Sequence[object]], right: Iterable[str] = ()) -> None:
        """A table; the columns of `right` are aligned to the right. A row may end in a style, beyond the header."""
        cells = [[str(cell) for cell in row] for row in rows]
        widths = [max(len(row[column]) for row in [list(header), *cells]) for column in range(len(header))]
        right = set(right)

        def line(row: Sequence[str]) -> str:
            parts = [
                cell.rjust(width) if name in right else cell.ljust(width)
                for cell, width, name in zip(row, widths, header)
            ]
            return "  ".join(parts).rstrip()

        print(self.style(line(header), "dim"))
        for row in cells:
            text = line(row)
            print(self.style(text, row[len(header)]) if len(row) > len(header) and row[len(header)] else text)


def counted(number: int) -> str:
    """A number with commas: 1,000,000."""
    return f"{number:,}"


def per_cent(gap: float) -> str:
    """A gap in per cent: the smallest ones are not said to be nothing, and above a floor of 0 there is none."""
    if gap == 0 or gap == inf:
        return "0 %" if gap == 0 else "-"
    return "under 0.1 %" if gap < 0.001 else f"{100 * gap:.1f} %"


def plural(number: int, one: str, many: str | None = None) -> str:
    """A count with its word: 1 street, 2 streets."""
    return f"{counted(number)} {one if number == 1 else many or one + 's'}"
