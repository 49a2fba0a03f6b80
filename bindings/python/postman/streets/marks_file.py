"""A car's marks: the streets that it checks, as a CSV file.

A row names streets by its columns `street`, `from` and `to`. A name alone marks the street's must rows; with an end
or both it marks the rows between them, whatever their standing, but for closed ones.
"""

from __future__ import annotations

from collections.abc import Collection

from ..plan import Standing
from .errors import ListError
from .picking import arcs_of
from .street_list import StreetList
from .table import read_table, written


def read_marks(path: str, streets: StreetList) -> frozenset[int]:
    """The arcs that a car checks."""
    table = read_table(path, (), ("street", "from", "to"))
    if not {"street", "from", "to"} & set(table.header):
        raise ListError("no column is named street, from or to", path, 1, "street")
    marks: set[int] = set()
    for row in table.rows:
        arcs = arcs_of(streets, row)
        if not (row.text("from") or row.text("to")):
            arcs = [arc for arc in arcs if streets.streets[arc].must]
            if not arcs:
                message = f"street {row.text('street')} has no must row in {streets.path}: name its ends by from and to"
                raise row.error("street", message)
        for arc in arcs:
            if streets.streets[arc].standing is Standing.CLOSED:
                raise row.error("street", f"{streets.leg(arc)} is closed in {streets.path}")
        marks.update(arcs)
    return frozenset(marks)


def marks_text(streets: StreetList, marks: Collection[int]) -> str:
    """Marks as the text of a CSV file, with both ends in each row."""
    rows = (streets.streets[arc] for arc in sorted(marks))
    return written(("from", "to", "street"), ((row.from_corner, row.to_corner, row.street) for row in rows))
