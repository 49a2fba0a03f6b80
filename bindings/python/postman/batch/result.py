"""What came of one plan, and its line in the file of results."""

from __future__ import annotations

import json
from dataclasses import dataclass, fields
from typing import Any

from ..refusal import Refusal


@dataclass(frozen=True, slots=True)
class Numbers:
    """A drive's numbers, as the answer has them. The gap is None above a floor of 0."""

    cost: int
    floor: int
    gap: float | None
    trees: int
    whole: bool
    parts: int


_NAMES = tuple(one.name for one in fields(Numbers))


@dataclass(frozen=True, slots=True)
class Result:
    """A drive's numbers, or why there is none. A plan goes by the path of its file."""

    file: str
    budget: int
    numbers: Numbers | None
    refusal: int | None
    """The refusal's number; None too for a file that is no plan."""
    error: str | None
    """Why there is no drive, in words."""
    seconds: float | None
    """What the plan call took; None where none was made."""

    def line(self) -> bytes:
        """The line, with its end."""
        told: dict[str, Any] = {"file": self.file, "budget": self.budget}
        numbers = self.numbers
        if numbers is not None:
            told |= {name: getattr(numbers, name) for name in _NAMES}
        else:
            refusal = None if self.refusal is None else Refusal(self.refusal)
            word = None if refusal is None else {"number": refusal.number, "word": refusal.word}
            told |= {"refusal": word, "error": self.error}
        return encoded({**told, "seconds": self.seconds})

    @classmethod
    def read(cls, line: bytes) -> Result:
        """What a line holds. One that holds something else raises ValueError."""
        try:
            told = json.loads(line)
            if "cost" in told:
                numbers, refusal, error = Numbers(*(told[name] for name in _NAMES)), None, None
            else:
                numbers, refusal, error = None, told["refusal"], told["error"]
            number = None if refusal is None else Refusal(refusal["number"]).number
            return cls(told["file"], told["budget"], numbers, number, error, told["seconds"])
        except (KeyError, TypeError, RecursionError):
            raise ValueError("this is no result") from None


@dataclass(frozen=True, slots=True)
class Undone:
    """A plan of which nothing is known: its file could not be read, or whoever worked on it failed. It gets no line, so
    that the next run tries again."""

    file: str
    reason: str


_as_text = json.JSONEncoder(ensure_ascii=False, allow_nan=False).encode
_as_ascii = json.JSONEncoder(allow_nan=False).encode


def encoded(told: object) -> bytes:
    """A line of JSON. Letters stand as they are, but in a name that is no text its bytes go by their numbers."""
    try:
        return _as_text(told).encode() + b"\n"
    except UnicodeEncodeError:
        return _as_ascii(told).encode() + b"\n"
