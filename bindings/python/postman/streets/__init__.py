"""Street lists: plans that a person writes, with names for corners and streets.

    from postman import plan_call, streets

    town = streets.open_list("examples/town/streets.csv")
    answer = plan_call(town.file, 10_000)
    print([town.streets[arc].name for arc in answer.drive])

`town.file` is what the library takes; it was read back by the proved reader and compared row by row with the list.
"""

from __future__ import annotations

from collections.abc import Iterable, Mapping
from pathlib import Path
from typing import Any

from ..answer import Answer
from .errors import ListError
from .street_list import Corner, Street, StreetList
from .table import read_bytes

__all__ = [
    "Corner",
    "ListError",
    "Street",
    "StreetList",
    "drive_geojson",
    "from_geojson",
    "open_list",
    "read",
    "write",
]


def read(path: str, corners: str | None = None) -> StreetList:
    """Reads a street list from CSV, and its corners from the CSV `corners` if it is given."""
    from .csv_file import read_csv

    return read_csv(path, corners)


def write(streets: StreetList, path: str, corners: str | None = None) -> None:
    """Writes a street list as CSV, and its corners to the CSV `corners` if it is given."""
    from .csv_file import write_csv

    write_csv(streets, path, corners)


def open_list(path: str, corners: str | None = None, data: bytes | None = None) -> StreetList:
    """Opens a street list, a plan file or GeoJSON, whichever the file is ("-" is standard input).

    The corners of a street list come from the file `corners`; where none is named, from the one beside it by its name,
    if there is one: corners.csv for streets.csv, A-corners.csv for A-streets.csv and for A.csv. `data` are the file's
    bytes where they were read already.
    """
    if data is None:
        data = read_bytes(path)
    kind = kind_of(path, data)
    if kind == "plan":
        from .plan_file import read_plan_file

        return read_plan_file(path, data)
    if kind == "geojson":
        from .geojson import from_geojson

        return from_geojson(path, data=data)
    from .csv_file import corners_beside, read_csv

    if corners is None and path != "-":
        beside = corners_beside(path)
        corners = beside if Path(beside).is_file() else None
    return read_csv(path, corners, data)


def kind_of(path: str, data: bytes) -> str:
    """What a file is: by the end of its name, or else by how it begins."""
    suffix = Path(path).suffix.lower()
    if suffix in (".csv", ".tsv", ".txt"):
        return "csv"
    if suffix in (".geojson", ".json"):
        return "geojson"
    if suffix == ".plan":
        return "plan"
    if data.removeprefix(b"\xef\xbb\xbf").lstrip().startswith(b"{"):
        return "geojson"
    if data[:2] in (b"\xff\xfe", b"\xfe\xff", b"PK"):
        return "csv"
    return "plan" if any(byte < 9 or 13 < byte < 32 for byte in data) else "csv"


def from_geojson(source: str | Mapping[str, Any], **options: Any) -> StreetList:
    """A street list of GeoJSON's lines; see `postman.streets.geojson.from_geojson`."""
    from .geojson import from_geojson

    return from_geojson(source, **options)


def drive_geojson(streets: StreetList, drive: Answer | Iterable[int]) -> dict[str, Any]:
    """A drive as GeoJSON; see `postman.streets.geojson.drive_geojson`."""
    from .geojson import drive_geojson

    return drive_geojson(streets, drive)
