"""Pairs of corners whose distances are asked for, as a CSV file with the columns `from` and `to`."""

from __future__ import annotations

from .errors import nearest
from .street_list import StreetList
from .table import read_table


def read_pairs(path: str, streets: StreetList) -> list[tuple[str, str]]:
    """The pairs of corners' names, each of which is a corner of the list."""
    pairs = []
    for row in read_table(path, ("from", "to")).rows:
        for column in ("from", "to"):
            name = row.needed(column)
            if name not in streets.numbers:
                hint = nearest(name, streets.numbers)
                raise row.error(column, f"{column} {name} is no corner of {streets.path}{hint}")
        pairs.append((row.text("from"), row.text("to")))
    return pairs
