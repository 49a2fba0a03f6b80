"""Saving the list on the desk: into the folder of the opened one, and over a file only when asked to."""

from __future__ import annotations

import os
import re
import secrets
from pathlib import Path, PurePath

from ..streets.csv_file import files_of
from ..streets.street_list import StreetList
from .state import Desk, Wrong

# A plain file name of letters, digits and a few signs: no folder, no hidden file, no name that a system keeps.
_NAME = re.compile(r"[\w][\w .()+,-]{0,95}\.csv", re.IGNORECASE)
_RESERVED = re.compile(r"(con|prn|aux|nul|com\d|lpt\d)\..*", re.IGNORECASE)


class Exists(Exception):
    """Files that are there already; they are written over only when that was asked for."""

    def __init__(self, names: list[str]) -> None:
        self.names = names
        super().__init__(f"{' and '.join(names)} {'is' if len(names) == 1 else 'are'} there already")


def save(desk: Desk, name: str, over: bool) -> str:
    """Writes the list, and its corners beside it where they need a file. Answers what was written."""
    if not _NAME.fullmatch(name) or _RESERVED.fullmatch(name):
        raise Wrong("write a plain file name that ends in .csv, without a folder")
    folder = Path(desk.opened.path).resolve().parent
    now = desk.streets
    if now.file != desk.plan.file:
        raise Wrong("the list is not the plan that is open")
    files = {Path(path).name: data for path, data in files_of(now, str(folder / name)).items()}
    # Corners don't change on the desk: a file that holds them already needs no writing.
    files = {one: data for one, data in files.items() if one == name or _held(folder / one) != data}
    for one in files:
        if (folder / one).is_symlink() or (folder / one).is_dir():
            raise Wrong(f"{one} is no plain file of the list's folder")
    there = [one for one in files if (folder / one).exists()]
    if there and not over:
        raise Exists(there)
    for one, data in files.items():
        _write(folder / one, data)
    return f"{' and '.join(files)} written."


def free_name(streets: StreetList) -> str:
    """A name beside a list that no file has."""
    folder = Path(streets.path).resolve().parent
    stem = re.sub(r"[^\w .()+,-]", "_", PurePath(streets.path).stem).lstrip(" .()+,-")[:80] or "streets"
    stem = re.sub(r"-\d+$", "", stem)
    for number in range(2, 1000):
        name = f"{stem}-{number}.csv"
        if not (folder / name).exists():
            break
    return name


def _held(path: Path) -> bytes | None:
    return path.read_bytes() if path.is_file() and not path.is_symlink() else None


def _write(path: Path, data: bytes) -> None:
    """Writes a file in one move, so that nobody finds half of it."""
    made = path.with_name(f".postman-{secrets.token_hex(8)}.part")
    try:
        try:
            with open(made, "xb") as file:
                file.write(data)
            os.replace(made, path)
        finally:
            made.unlink(missing_ok=True)
    except OSError as error:
        raise Wrong(f"{path.name} cannot be written: {error.strerror}") from None
