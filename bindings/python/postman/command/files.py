"""Files that the command writes. A list that somebody may have edited is not written over unasked."""

from __future__ import annotations

from collections.abc import Iterable
from pathlib import Path

from ..streets.errors import ListError

FORCE = "--force writes over it"


def write_files(files: Iterable[tuple[str, bytes]], force: bool, hint: str = FORCE) -> None:
    """Writes files, all or none if one is there already; those only by `force`."""
    files = list(files)
    for path, _ in files:
        if not force and Path(path).exists():
            raise ListError(f"is there already; {hint}", path)
    for path, data in files:
        try:
            Path(path).write_bytes(data)
        except OSError as error:
            raise ListError(f"cannot be written: {error.strerror}", path) from None


def folder_of(path: str) -> Path:
    """A folder, made if it is not there."""
    try:
        Path(path).mkdir(parents=True, exist_ok=True)
    except OSError as error:
        raise ListError(f"cannot be made: {error.strerror}", path) from None
    return Path(path)
