"""A week of market days: for each spell in which the same streets are shut, what the library answers."""

from __future__ import annotations

from collections.abc import Callable
from dataclasses import dataclass

from ..answer import Answer
from ..limits import DAY_MINUTES
from ..refusal import Refusal
from ..streets.windows_file import DAYS, TypedWindow, shut_at
from ..windows import Departure


@dataclass(frozen=True)
class Spell:
    """Times of the week at which the same streets are shut, and the answer for a departure in them."""

    times: str
    shut: frozenset[int]
    result: Answer | Refusal


def spells(windows: tuple[TypedWindow, ...], ask: Callable[[Departure], Answer]) -> list[Spell]:
    """The spells of a week, as they first occur, that with nothing shut last. Each is asked once."""
    times: dict[frozenset[int], list[tuple[int, str]]] = {}
    first: dict[frozenset[int], Departure] = {}
    for day in range(len(DAYS)):
        for shut, start, end in _day(windows, day):
            first.setdefault(shut, Departure(day, start))
            times.setdefault(shut, []).append((day, f"{clock(start)} to {clock(end)}"))
    spells_found = []
    for shut in sorted(times, key=lambda shut: not shut):
        words = _said(times[shut]) if shut or len(times) == 1 else "at all other times"
        spells_found.append(Spell(words, shut, _result(ask, first[shut])))
    return spells_found


def _day(windows: tuple[TypedWindow, ...], day: int) -> list[tuple[frozenset[int], int, int]]:
    """The arcs that are shut on a day, from each minute at which they change to the next."""
    own = [typed.window for typed in windows if typed.window.weekday == day]
    edges = sorted({0, DAY_MINUTES, *(w.from_minute for w in own), *(w.to_minute for w in own)})
    joined: list[tuple[frozenset[int], int, int]] = []
    for start, end in zip(edges, edges[1:]):
        shut = frozenset(shut_at(windows, Departure(day, start)))
        if joined and joined[-1][0] == shut:
            start = joined.pop()[1]
        joined.append((shut, start, end))
    return joined


def _said(times: list[tuple[int, str]]) -> str:
    """Times of the week in words; days with the same times together."""
    by_day: dict[int, list[str]] = {}
    for day, words in times:
        by_day.setdefault(day, []).append(words)
    by_times: dict[str, list[str]] = {}
    for day, words_of_day in by_day.items():
        by_times.setdefault(" and ".join(words_of_day), []).append(DAYS[day].capitalize())
    return "; ".join(f"{', '.join(days)} {words}" for words, days in by_times.items())


def clock(minute: int) -> str:
    """A minute of the day as 07:30."""
    return f"{minute // 60:02}:{minute % 60:02}"


def _result(ask: Callable[[Departure], Answer], departure: Departure) -> Answer | Refusal:
    try:
        return ask(departure)
    except Refusal as refusal:
        return refusal
