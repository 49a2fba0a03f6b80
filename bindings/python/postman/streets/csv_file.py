"""Street lists and their corners as CSV files."""

from __future__ import annotations

from pathlib import Path

from ..plan import Standing
from .errors import ListError, nearest
from .street_list import HIGHEST_COST, Corner, Street, StreetList
from .table import Row, Table, encoded, read_table, written

STANDINGS = {standing.name.lower(): standing for standing in Standing}


def read_csv(path: str, corners: str | None = None, data: bytes | None = None) -> StreetList:
    """Reads a street list and the file of its corners.

    Without a file of corners these are numbered as they first occur. The column `checking` makes the list's plan one of
    edition 2.
    """
    table = read_table(path, ("from", "to", "standing", "cost"), ("checking", "street"), data)
    if not table.rows:
        raise ListError("has no street; write one a row under the header", path)
    checked = "checking" in table.header
    streets = tuple(street_of(row, checked) for row in table.rows)
    notes: tuple[str, ...] = ()
    if corners is None:
        found = corners_in_order(streets)
        notes = alike(found)
    else:
        found = read_corners(corners)
        check_corners(table, corners, {corner.name for corner in found})
    return StreetList(path, 2 if checked else 1, found, streets, corners, notes=notes)


def street_of(row: Row, checked: bool) -> Street:
    """The street of a row."""
    ends = row.needed("from"), row.needed("to")
    word = row.needed("standing").lower()
    if word not in STANDINGS:
        raise row.error("standing", f"standing {row.text('standing')} is none of may, must and closed")
    standing = STANDINGS[word]
    cost = row.whole("cost", HIGHEST_COST)
    checking = checking_of(row, standing) if checked else None
    return Street(row.number, *ends, standing, cost, checking, row.text("street"))


def checking_of(row: Row, standing: Standing) -> int | None:
    """The cost of the checking pass, which a must street has and no other."""
    if standing is Standing.MUST:
        if not row.text("checking"):
            raise row.error("checking", "checking is empty, and the street is must: write what the checking pass costs")
        return row.whole("checking", HIGHEST_COST)
    if row.text("checking") and row.whole("checking", HIGHEST_COST):
        message = f"checking is {row.text('checking')}, and the street is {standing.name.lower()}: leave it empty"
        raise row.error("checking", message)
    return None


def corners_in_order(streets: tuple[Street, ...]) -> tuple[Corner, ...]:
    """The corners as they first occur."""
    names = dict.fromkeys(name for street in streets for name in (street.from_corner, street.to_corner))
    return tuple(Corner(name) for name in names)


def alike(corners: tuple[Corner, ...]) -> tuple[str, ...]:
    """A note on corners whose names differ in nothing but capitals: they may be one."""
    met: dict[str, str] = {}
    for corner in corners:
        other = met.setdefault(corner.name.casefold(), corner.name)
        if other != corner.name:
            return (f"{other} and {corner.name} are two corners: write both names alike if they are one",)
    return ()


def read_corners(path: str) -> tuple[Corner, ...]:
    """Reads a file of corners, in its order."""
    table = read_table(path, ("corner",), ("x", "y", "lon", "lat"))
    rows: dict[str, int] = {}
    corners = []
    for row in table.rows:
        name = row.needed("corner")
        if name in rows:
            raise row.error("corner", f"corner {name} stands in row {rows[name]} already")
        rows[name] = row.number
        corners.append(Corner(name, *pair_of(row, "x", "y"), *pair_of(row, "lon", "lat")))
    if not corners:
        raise ListError("has no corner; write one a row under the header", path)
    return tuple(corners)


def pair_of(row: Row, first: str, second: str) -> tuple[float | None, float | None]:
    """Two coordinates, of which both are known or neither."""
    pair = row.decimal(first), row.decimal(second)
    for column, value, other in ((first, pair[0], second), (second, pair[1], first)):
        if value is None and pair != (None, None):
            raise row.error(column, f"corner {row.text('corner')} has {other} and no {column}")
    return pair


def check_corners(table: Table, corners: str, known: set[str]) -> None:
    """Each end of a street must be among the corners, or it is a slip of the pen."""
    for row in table.rows:
        for column in ("from", "to"):
            name = row.text(column)
            if name not in known:
                raise row.error(column, f"{column} {name} is no corner of {corners}{nearest(name, known)}")


def corners_beside(path: str) -> str:
    """The file of corners that belongs to a street list by its name: "corners" where the list's name has "streets", and
    A-corners.csv for A.csv."""
    file = Path(path)
    name = file.name.replace("streets", "corners") if "streets" in file.name else f"{file.stem}-corners.csv"
    return str(file.with_name(name))


def needs_corners(streets: StreetList) -> bool:
    """Whether the list alone would be read otherwise: without coordinates, or with its corners in another order."""
    placed = any(corner.x is not None or corner.lon is not None for corner in streets.corners)
    names = [corner.name for corner in streets.corners]
    return placed or names != [corner.name for corner in corners_in_order(streets.streets)]


def files_of(streets: StreetList, path: str) -> dict[str, bytes]:
    """A list as files from which it is read back as it is: the CSV `path`, and that of its corners where one is needed,
    or where one is there that would be taken for it."""
    files = {path: encoded(streets_text(streets))}
    beside = corners_beside(path)
    if needs_corners(streets) or Path(beside).exists():
        files[beside] = encoded(corners_text(streets))
    return files


def streets_text(streets: StreetList) -> str:
    """A list as the text of a CSV file."""
    checked = streets.edition == 2
    header = ("from", "to", "standing", "cost", *(("checking",) if checked else ()), "street")
    rows = (
        (
            street.from_corner,
            street.to_corner,
            street.standing.name.lower(),
            street.cost,
            *((street.checking,) if checked else ()),
            street.street,
        )
        for street in streets.streets
    )
    return written(header, rows)


def corners_text(streets: StreetList) -> str:
    """A list's corners as the text of a CSV file."""
    on_earth = any(corner.lon is not None for corner in streets.corners)
    header = ("corner", "x", "y", *(("lon", "lat") if on_earth else ()))
    rows = (
        (
            corner.name,
            plain(corner.x),
            plain(corner.y),
            *((plain(corner.lon), plain(corner.lat)) if on_earth else ()),
        )
        for corner in streets.corners
    )
    return written(header, rows)


def plain(number: float | None) -> float | int | None:
    """A number without a fraction of 0."""
    return int(number) if number is not None and number == int(number) else number


def write_csv(streets: StreetList, path: str, corners: str | None = None) -> None:
    """Writes a list, and its corners if they get a file."""
    Path(path).write_bytes(encoded(streets_text(streets)))
    if corners is not None:
        Path(corners).write_bytes(encoded(corners_text(streets)))
