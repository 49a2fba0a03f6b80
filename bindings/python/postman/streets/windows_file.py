"""Market days: times in which streets are shut, as a CSV file.

Its columns are `street`, `from` and `to` (which streets; one of them will do), `day` (mon, or mon-fri, or "sat sun",
or daily), `start` and `end` (as 07:30; a window may end at 24:00).
"""

from __future__ import annotations

from typing import NamedTuple

from ..limits import DAY_MINUTES, MOST_WINDOWS
from ..windows import Departure, Window
from .numerals import whole_of
from .picking import arcs_of
from .street_list import StreetList
from .table import Row, read_table

DAYS = ("mon", "tue", "wed", "thu", "fri", "sat", "sun")
LONG_DAYS = ("monday", "tuesday", "wednesday", "thursday", "friday", "saturday", "sunday")


class TypedWindow(NamedTuple):
    """A window, and the row that it comes from."""

    window: Window
    row: Row


def read_windows(path: str, streets: StreetList) -> tuple[TypedWindow, ...]:
    """Reads the windows of a list's streets: one for each street and day that a row names."""
    table = read_table(path, ("day", "start", "end"), ("street", "from", "to"))
    found = []
    for row in table.rows:
        start, end = minute_of(row, "start"), minute_of(row, "end")
        if start >= end:
            raise row.error("end", f"end {row.text('end')} is not after start {row.text('start')}")
        if start >= DAY_MINUTES:
            raise row.error("start", f"start {row.text('start')} is after the day's last minute")
        days = days_of(row)
        for arc in arcs_of(streets, row):
            found += [TypedWindow(Window(arc, day, start, end), row) for day in days]
    if len(found) > MOST_WINDOWS:
        row = found[MOST_WINDOWS].row
        raise row.error(
            None, f"{len(found)} windows, one a street and day, and at most {MOST_WINDOWS}: this row is beyond"
        )
    return tuple(found)


def weekday_of(text: str) -> int | None:
    """0 for Monday to 6, or None for what is no weekday."""
    word = text.strip().lower()
    for days in (DAYS, LONG_DAYS):
        if word in days:
            return days.index(word)
    return None


def days_of(row: Row) -> list[int]:
    """The weekdays of a cell: one, several with spaces or commas between them, a range, or daily."""
    text = row.needed("day").lower()
    if text == "daily":
        return list(range(7))
    days: list[int] = []
    for word in text.replace(",", " ").split():
        start, dash, end = word.partition("-")
        first, last = weekday_of(start), weekday_of(end if dash else start)
        if first is None or last is None:
            raise row.error("day", f"day {row.text('day')} is no weekday: write mon, mon-fri, sat sun or daily")
        # A range may go over the end of the week: fri-mon.
        days += [day % 7 for day in range(first, last + 1 + 7 * (last < first))]
    return sorted(set(days))


def minute_of(row: Row, column: str) -> int:
    """The minute of the day of a cell such as 07:30; 24:00 is the end of the day."""
    minute = minutes(row.needed(column))
    if minute is None:
        raise row.error(column, f"{column} {row.text(column)} is no time: write it as 07:30")
    return minute


def minutes(text: str) -> int | None:
    """The minutes of a time such as 7:30, or None. Spreadsheets add seconds of 00."""
    hour, *rest = text.split(":")
    if len(rest) == 2 and rest[1] == "00":
        rest.pop()
    if len(rest) != 1 or len(hour) > 2 or len(rest[0]) != 2:
        return None
    hours, past = whole_of(hour), whole_of(rest[0])
    if hours is None or past is None or past >= 60:
        return None
    minute = 60 * hours + past
    return minute if minute <= DAY_MINUTES else None


def departure_of(text: str) -> Departure:
    """The departure of a text such as "tue 09:30"."""
    day, _, time = text.strip().partition(" ")
    weekday, minute = weekday_of(day), minutes(time.strip())
    if weekday is None or minute is None or minute == DAY_MINUTES:
        raise ValueError(f'{text!r} is no departure: write it as "tue 09:30"')
    return Departure(weekday, minute)


def shut_at(windows: tuple[TypedWindow, ...], departure: Departure) -> dict[int, Row]:
    """The arcs that are shut at a departure, each with the first row that shuts it."""
    shut: dict[int, Row] = {}
    for window, row in windows:
        if window.weekday == departure.weekday and window.from_minute <= departure.minute < window.to_minute:
            shut.setdefault(window.arc, row)
    return shut


def must_shut(streets: StreetList, windows: tuple[TypedWindow, ...], departure: Departure) -> str:
    """What refusal 20 means: the must streets that are shut, and the rows that shut them."""
    lines = ["streets that must be checked are shut at this departure:"]
    for arc, row in shut_at(windows, departure).items():
        if streets.streets[arc].must:
            lines.append(f"  {streets.leg(arc)}, shut by {row.file} row {row.number}")
    lines.append("depart at another time, or make them may for this drive")
    return "\n".join(lines)
