"""Times in which arcs are shut, and when a drive begins."""

from __future__ import annotations

from collections.abc import Iterable
from ctypes import Array, c_uint16
from dataclasses import dataclass
from typing import TYPE_CHECKING

from ._lent import shorts

if TYPE_CHECKING:
    from datetime import datetime


@dataclass(frozen=True, slots=True)
class Window:
    """A time in which an arc is shut: on a weekday, from a minute of the day on and before another."""

    arc: int
    """The arc's number, of whatever standing it is."""
    weekday: int
    """0, Monday, to 6."""
    from_minute: int
    """The first minute in which the arc is shut."""
    to_minute: int
    """The first minute in which it is open again, above `from_minute` and at most 1,440."""


@dataclass(frozen=True, slots=True)
class Departure:
    """When the drive begins. Later minutes play no part."""

    weekday: int
    """0, Monday, to 6."""
    minute: int
    """0 to 1,439."""

    @classmethod
    def at(cls, when: datetime) -> Departure:
        """The departure at a date's weekday and minute.

        >>> from datetime import datetime
        >>> Departure.at(datetime(2024, 5, 7, 9, 30))
        Departure(weekday=1, minute=570)
        """
        return cls(when.weekday(), 60 * when.hour + when.minute)


def numbers_of(windows: Iterable[Window]) -> Array[c_uint16]:
    """Windows as they are lent."""
    return shorts(n for w in windows for n in (w.arc, w.weekday, w.from_minute, w.to_minute))
