"""Streets that another table names: by their name, by their ends, or by both."""

from __future__ import annotations

from .errors import nearest
from .street_list import StreetList
from .table import Row


def arcs_of(streets: StreetList, row: Row) -> list[int]:
    """The arcs that a row names by its columns street, from and to; those that are empty tell nothing. At least one."""
    wanted = {column: row.text(column) for column in ("street", "from", "to") if row.text(column)}
    if not wanted:
        raise row.error("street", "names no street: write its name, or its ends, or both")
    known = {
        "street": {street.street for street in streets.streets},
        "from": streets.numbers,
        "to": streets.numbers,
    }
    for column, name in wanted.items():
        if name not in known[column]:
            what = "street" if column == "street" else "corner"
            raise row.error(column, f"{column} {name} is no {what} of {streets.path}{nearest(name, known[column])}")
    found = [
        arc
        for arc, street in enumerate(streets.streets)
        if wanted.get("street", street.street) == street.street
        and wanted.get("from", street.from_corner) == street.from_corner
        and wanted.get("to", street.to_corner) == street.to_corner
    ]
    if not found:
        raise row.error("street", f"{streets.path} has no row with {said(wanted)}")
    return found


def said(wanted: dict[str, str]) -> str:
    """Columns and their texts in a sentence."""
    return ", ".join(f"{column} {name}" for column, name in wanted.items())
