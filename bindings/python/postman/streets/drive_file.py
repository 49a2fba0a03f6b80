"""A drive that somebody laid, as a file, and what is wrong with it.

It is what `postman drive` writes as CSV or JSON, or what the program `drive` prints; a CSV with the columns `arc`, or
`from`, `to` and `street`, whoever wrote it; or arc numbers, one a line.
"""

from __future__ import annotations

from typing import NamedTuple

from ..plan import Standing
from ..refusal import Refusal
from .errors import ListError, clipped
from .explain import explain
from .numerals import whole_of
from .street_list import StreetList
from .table import Row, decoded, name_of, read_bytes, read_table, separator_of

NO_ARC = 65535
"""A number that no arc has."""

PRINTED = ("cost", "floor", "trees", "whole", "parts")
"""The words before other numbers that the program `drive` prints."""


class TypedDrive(NamedTuple):
    """A drive's arcs, and where each stands in the file: "row 8". What is no street of the list is NO_ARC."""

    path: str
    arcs: tuple[int, ...]
    places: tuple[str, ...]
    said: tuple[str, ...]
    """What each place says, where it is NO_ARC."""


def read_drive(path: str, streets: StreetList) -> TypedDrive:
    """Reads a drive along the streets of a list."""
    return drive_of(path, read_bytes(path), streets)


def drive_of(path: str, data: bytes, streets: StreetList) -> TypedDrive:
    """A drive in the bytes of a file; `path` is what errors call it."""
    text = decoded(data, path)
    start = text.lstrip()
    if start[:1] in ("{", "["):
        return from_json(path, text, streets)
    first = next((line for line in text.splitlines() if line.strip()), "")
    columns = {cell.strip().strip('"').lower() for cell in first.split(separator_of(first))}
    if "arc" in columns or {"from", "to"} <= columns:
        return from_table(path, data, streets)
    return from_lines(path, text)


def from_json(path: str, text: str, streets: StreetList) -> TypedDrive:
    from .json_text import parsed

    value = parsed(path, text)
    drive = value.get("drive") if isinstance(value, dict) else value
    if not isinstance(drive, list) or not all(type(arc) is int for arc in drive):
        raise ListError("has no drive: a list of arc numbers, or an object in which drive is one", path)
    steps = value.get("steps") if isinstance(value, dict) else None
    if isinstance(steps, list) and len(steps) == len(drive):
        for number, (arc, step) in enumerate(zip(drive, steps), 1):
            names = {column: step.get(column) for column in ("street", "from", "to")} if isinstance(step, dict) else {}
            other = differing(arc, {column: name for column, name in names.items() if isinstance(name, str)}, streets)
            if other is not None:
                raise ListError(other[1], path, number, other[0], unit="place")
    places = tuple(f"place {number}" for number in range(1, len(drive) + 1))
    return TypedDrive(path, tuple(map(clamped, drive)), places, tuple(f"arc {arc}" for arc in drive))


def from_lines(path: str, text: str) -> TypedDrive:
    arcs, places, said = [], [], []
    for number, line in enumerate(text.splitlines(), 1):
        words = line.split()
        if not words or words[0] in PRINTED:
            continue
        if words[0] == "arc":
            words = words[1:]
        arc = whole_of(words[0]) if len(words) == 1 else None
        if arc is None:
            message = "is no arc number: write one a line, or a table with the columns from, to and street"
            raise ListError(f"{clipped(name_of(line))} {message}", path, number, unit="line")
        arcs.append(clamped(arc))
        places.append(f"line {number}")
        said.append(f"arc {clipped(words[0])}")
    return TypedDrive(path, tuple(arcs), tuple(places), tuple(said))


def from_table(path: str, data: bytes, streets: StreetList) -> TypedDrive:
    table = read_table(path, (), ("arc", "from", "to", "street"), data)
    by_number = "arc" in table.header
    arcs, places, said = [], [], []
    for row in table.rows:
        wanted = {column: row.text(column) for column in ("street", "from", "to") if column in table.header}
        if by_number:
            arc = clamped(row.whole("arc", NO_ARC))
            check_names(row, arc, wanted, streets)
        else:
            arc = arc_named(row, wanted, streets)
        arcs.append(arc)
        places.append(f"row {row.number}")
        said.append(f"arc {row.text('arc')}" if by_number else leg_of(wanted))
    return TypedDrive(path, tuple(arcs), tuple(places), tuple(said))


def clamped(number: int) -> int:
    return number if 0 <= number < NO_ARC else NO_ARC


def leg_of(wanted: dict[str, str]) -> str:
    return f"{wanted.get('street') or 'a street'} from {wanted['from']} to {wanted['to']}"


def names_of(streets: StreetList, arc: int) -> dict[str, str]:
    street = streets.streets[arc]
    return {"street": street.street, "from": street.from_corner, "to": street.to_corner}


def differing(arc: int, wanted: dict[str, str], streets: StreetList) -> tuple[str, str] | None:
    """The first column in which names beside an arc's number are not those of the arc, and that in words: the list may
    have been sorted since."""
    if not 0 <= arc < len(streets.streets):
        return None
    held = names_of(streets, arc)
    for column, name in wanted.items():
        if name and name != held[column]:
            return column, f"arc {arc} has {column} {held[column]} in {streets.path}, and {name} here"
    return None


def check_names(row: Row, arc: int, wanted: dict[str, str], streets: StreetList) -> None:
    """Names beside an arc's number must be those of the arc."""
    other = differing(arc, wanted, streets)
    if other is not None:
        raise row.error(*other)


def arc_named(row: Row, wanted: dict[str, str], streets: StreetList) -> int:
    """The arc with these names, the first that is not closed, or NO_ARC. Several of different costs need a number."""
    for column in ("from", "to"):
        row.needed(column)
    found = [
        arc
        for arc in range(len(streets.streets))
        if all(not name or names_of(streets, arc)[column] == name for column, name in wanted.items())
    ]
    driven = [arc for arc in found if streets.streets[arc].standing is not Standing.CLOSED]
    if len(driven) > 1:
        rows = " and ".join(streets.place(arc) for arc in driven)
        raise row.error(
            "street", f"may be {rows} of {streets.path}: add the column arc with the arc's number, from 0 on"
        )
    return (driven or found or [NO_ARC])[0]


def explain_drive(streets: StreetList, drive: TypedDrive, refusal: Refusal) -> str:
    """What a refusal of judging means, by the place in the drive's file and by the streets' names."""
    arcs, places = drive.arcs, drive.places
    if refusal.number == Refusal.FOREIGN:
        for arc, place, said in zip(arcs, places, drive.said):
            if arc >= len(streets.streets):
                return f"{drive.path} {place}: {said} is no street of {streets.path}: correct it, or take it out"
            if streets.streets[arc].standing is Standing.CLOSED:
                return f"{drive.path} {place}: {streets.leg(arc)} is closed: lead around it, or open it in the list"
    if refusal.number == Refusal.UNJOINED:
        for number, arc in enumerate(arcs):
            after = (number + 1) % len(arcs)
            ends = streets.streets[arc].to_corner, streets.streets[arcs[after]].from_corner
            if ends[0] != ends[1]:
                return (
                    f"{drive.path} {places[number]}: {streets.leg(arc)} ends at {ends[0]}, "
                    f"and the next, {streets.leg(arcs[after])} ({places[after]}), begins at {ends[1]}: "
                    "put in the way between them"
                )
    if refusal.number == Refusal.MISSED:
        missed = [arc for arc, street in enumerate(streets.streets) if street.must and arc not in set(arcs)]
        # In a plan file the arc's number is its name.
        rows = ["" if streets.unit == "arc" else f" ({streets.unit} {streets.streets[arc].row})" for arc in missed]
        legs = [f"  {streets.leg(arc)}{row}" for arc, row in zip(missed, rows)]
        many, them = (f"{len(missed)} must streets are", "them") if len(missed) > 1 else ("1 must street is", "it")
        return "\n".join([f"{drive.path}: {many} missed:", *legs, f"lead the drive over {them}"])
    return explain(streets, refusal)
