"""The C library: found, loaded, and declared as include/postman.h declares it.

What is proved is this library, but for postman_version and postman_refusal_word. The rest of the package lends it
memory and takes its answers apart, and is not proved.
"""

from __future__ import annotations

import ctypes
import os
from ctypes import POINTER, c_char_p, c_int64, c_size_t, c_uint8, c_uint16, c_uint32, c_uint64
from pathlib import Path
from typing import Any

NAME = "libpostman.so"

_HERE = Path(__file__).resolve().parent


def candidates() -> list[Path]:
    """Where the library is looked for: at POSTMAN_LIBRARY if that is given, else beside the package, then in build/."""
    given = os.environ.get("POSTMAN_LIBRARY")
    if given:
        return [Path(given)]
    return [_HERE / NAME, *(root / "build" / NAME for root in _HERE.parents[2:3])]


def _load() -> tuple[ctypes.CDLL, Path]:
    for path in candidates():
        if path.is_file():
            try:
                return ctypes.CDLL(str(path)), path
            except OSError as error:
                raise ImportError(f"the library {path} does not load: {error}") from error
    tried = ", ".join(map(str, candidates()))
    raise ImportError(
        f"there is no {NAME} (looked for {tried}): run `make` in the repository, or set POSTMAN_LIBRARY to its path"
    )


library, path = _load()
"""The loaded library, and where it was found."""

# A lent slice is a pointer and the number of its elements. Bytes that are only read go in as they are, without a copy.
_READ: list[Any] = [c_char_p, c_size_t]
_BYTES: list[Any] = [POINTER(c_uint8), c_size_t]
_SHORTS: list[Any] = [POINTER(c_uint16), c_size_t]
_DRIVE: list[Any] = [POINTER(c_uint16), c_size_t, POINTER(c_uint64), c_size_t, POINTER(c_int64), c_size_t]
_DEPARTURE: list[Any] = [*_SHORTS, c_uint32, c_uint32]

DECLARATIONS: dict[str, tuple[Any, list[Any]]] = {
    "postman_version": (c_char_p, []),
    "postman_refusal_word": (c_char_p, [c_uint32]),
    "postman_read_plan": (c_int64, [*_READ, *_BYTES]),
    "postman_write_plan": (c_int64, [c_uint32, c_uint32, *_READ, *_BYTES]),
    "postman_plan_call": (c_int64, [*_READ, c_uint64, *_DRIVE]),
    "postman_deep_call": (c_int64, [*_READ, c_uint64, c_uint32, *_DRIVE]),
    "postman_plan_call_at": (c_int64, [*_READ, c_uint64, *_DEPARTURE, *_DRIVE]),
    "postman_short_call": (c_int64, [*_READ, *_DRIVE]),
    "postman_two_cars": (c_int64, [*_READ, *_READ, c_uint64, *_DRIVE, *_READ, c_uint64, *_DRIVE]),
    "postman_open": (c_int64, [*_READ, *_BYTES]),
    "postman_change": (c_int64, [*_BYTES, c_uint32, c_uint16, c_uint16, c_uint8]),
    "postman_mark": (c_int64, [*_BYTES, c_uint32]),
    "postman_return": (c_int64, [*_BYTES, c_uint32]),
    "postman_ask": (c_int64, [*_BYTES, c_uint64, *_DEPARTURE, *_DRIVE]),
    "postman_districts_start": (c_int64, [*_BYTES]),
    "postman_enter": (c_int64, [*_BYTES, *_READ, c_uint64]),
    "postman_turn": (c_int64, [*_BYTES, *_DRIVE]),
    "postman_distances": (c_int64, [*_READ, *_SHORTS, POINTER(c_uint32), c_size_t]),
    "postman_tree_count": (c_int64, [*_READ]),
    "postman_judge": (c_int64, [*_READ, *_SHORTS]),
}
"""Every function of the header: its result and its parameters."""

for _name, (_result, _parameters) in DECLARATIONS.items():
    try:
        _function = getattr(library, _name)
    except AttributeError:
        raise ImportError(f"the library {path} has no {_name}: it is another version's; run `make` again") from None
    _function.restype = _result
    _function.argtypes = _parameters

__version__: str = library.postman_version().decode("ascii")
"""The library's version."""
