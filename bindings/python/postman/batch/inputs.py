"""Which plans there are: the files that are named, and those of the folders that are named.

Of a folder, and the folders in it, come plan files (.plan), maps (.geojson) and street lists (.csv); a table of
something else, such as corners, is passed over. A plan goes by its path as it was named.
"""

from __future__ import annotations

import os
from collections.abc import Iterable, Iterator
from typing import NamedTuple

from ..streets.errors import ListError

HEADER_BYTES = 4096
"""A header is looked for in so many bytes."""


class Inputs(NamedTuple):
    """Paths of plans, each once, in the order in which they are named and by name within a folder; and of the tables
    that were passed over."""

    plans: list[str]
    others: list[str]


def inputs_of(named: Iterable[str]) -> Inputs:
    """The plans of files and folders."""
    plans: dict[str, None] = {}
    others: list[str] = []
    for name in named:
        if name == "-":
            raise ListError("a batch takes files and folders", name)
        path = os.path.normpath(name)
        if not os.path.isdir(path):
            plans[path] = None
            continue
        for found in sorted(within(path)):
            if found.lower().endswith(".csv") and not is_street_list(found):
                others.append(found)
            else:
                plans[found] = None
    return Inputs(list(plans), others)


def within(folder: str) -> Iterator[str]:
    """The files of a folder, and of the folders in it, that may be plans. What begins with a dot is passed over."""

    def failed(error: OSError) -> None:
        raise ListError(f"cannot be read: {error.strerror}", str(error.filename))

    for place, folders, files in os.walk(folder, onerror=failed):
        folders[:] = [name for name in folders if not name.startswith(".")]
        for name in files:
            if name.lower().endswith((".plan", ".geojson", ".csv")) and not name.startswith("."):
                yield os.path.join(place, name)


def is_street_list(path: str) -> bool:
    """Whether the header of a CSV has the column that only street lists have. A file that cannot be read is taken, so
    that the run tells of it."""
    try:
        with open(path, "rb") as file:
            data = file.read(HEADER_BYTES)
    except OSError:
        return True
    encoding = "utf-16" if data[:2] in (b"\xff\xfe", b"\xfe\xff") else "utf-8-sig"
    lines = (line for line in data.decode(encoding, "replace").splitlines() if line.strip(" ,;\t"))
    return "standing" in next(lines, "").lower()
