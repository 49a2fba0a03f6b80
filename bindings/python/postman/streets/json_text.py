"""JSON as other programs write it. What it holds beyond JSON's own rules is told, and not taken."""

from __future__ import annotations

import json
from math import isfinite
from typing import Any, NoReturn

from .errors import ListError, clipped
from .numerals import BEYOND, whole_of


def parsed(path: str, text: str) -> Any:
    """What a text of JSON holds; `path` is what errors call the file. Its numbers are finite."""

    def beyond(number: str) -> NoReturn:
        raise ListError(f"{clipped(number)} is no number that a plan can have", path)

    def whole(number: str) -> int:
        if whole_of(number.lstrip("-")) == BEYOND:
            beyond(number)
        return int(number)

    def decimal(number: str) -> float:
        if not isfinite(float(number)):
            beyond(number)
        return float(number)

    try:
        return json.loads(text, parse_int=whole, parse_float=decimal, parse_constant=beyond)
    except json.JSONDecodeError as error:
        raise ListError(f"line {error.lineno}, column {error.colno}: {error.msg}; this is no JSON", path) from None
    except RecursionError:
        raise ListError("has too many brackets within each other; this is no JSON of a plan or a drive", path) from None
