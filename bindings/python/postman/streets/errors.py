"""Errors of street lists, said so that a person finds the place in the file."""

from __future__ import annotations

import re
from collections.abc import Iterable


def shown(path: str) -> str:
    """A file as it is named to a person."""
    return "standard input" if path == "-" else path


class ListError(Exception):
    """Something in a list that cannot be taken as it stands.

    `file` is the file as it was named, `row` its row as a spreadsheet numbers it (the header is row 1), `column` the
    column's name, `street` the street of that row; each is None where it is not known. `unit` is what a row is
    called: in GeoJSON it is a feature, in a plan file an arc.
    """

    def __init__(
        self,
        message: str,
        file: str,
        row: int | None = None,
        column: str | None = None,
        street: str | None = None,
        unit: str = "row",
    ) -> None:
        self.message = message
        self.file = file
        self.row = row
        self.column = column
        self.street = street or None
        self.unit = unit
        super().__init__(str(self))

    def __str__(self) -> str:
        place = shown(self.file)
        if self.row is not None:
            place += f" {self.unit} {self.row}"
        if self.street is not None:
            place += f" ({self.street})"
        if self.column is not None and not re.search(rf"\b{re.escape(self.column)}\b", self.message):
            place += f", column {self.column}"
        return f"{place}: {self.message}"


LONGEST_SHOWN = 40
"""The most letters of a text that are shown to a person."""


def clipped(text: str) -> str:
    """The beginning of a long text."""
    return text if len(text) <= LONGEST_SHOWN else f"{text[:LONGEST_SHOWN]}..."


def nearest(name: str, known: Iterable[str]) -> str:
    """A hint at the known name that `name` is most like, capital or small, or nothing."""
    from difflib import get_close_matches

    written = {one.lower(): one for one in known}
    close = get_close_matches(name.lower(), written, n=1, cutoff=0.75)
    return f"; did you mean {written[close[0]]}?" if close else ""
