"""The plan call, also at a departure, the short and the deep call, the number of trees, distances, and judging a drive.

A `file` is a plan file's bytes, or a `Plan`, which is written first.
"""

from __future__ import annotations

from collections.abc import Iterable
from ctypes import c_uint32
from dataclasses import dataclass

from ._lent import borrow, byte, give_back, long, shorts, unless_refused, word
from ._library import library
from .answer import Answer
from .limits import HIGHEST_COUNT, NO_PATH, PAIR
from .plan import File, file_bytes
from .windows import Departure, Window, numbers_of

_plan_call = library.postman_plan_call
_short_call = library.postman_short_call


def plan_call(file: File, budget: int) -> Answer:
    """Lays a drive, trying at most `budget` trees, from 1 to 1,000,000. Refuses with 1 to 7 and 9 to 13.

    >>> answer = plan_call(bytes.fromhex("10402001400141000003"), 10_000)
    >>> answer.drive, answer.cost, answer.floor
    ((0, 1), 8, 8)
    """
    file = file_bytes(file)
    lent = borrow()
    try:
        unless_refused(_plan_call(file, len(file), long(budget), *lent.arguments))
        return lent.answer()
    finally:
        give_back(lent)


def deep_call(file: File, budget: int, rounds: int) -> Answer:
    """Lays a drive by rounds of the plan call, from 1 to 1,000: the cheapest drive and the highest floor of them.

    Some rounds go on where the fewest trees are left, with `budget` more; all others after the first number the
    vertices anew. It ends as soon as floor and cost meet, which `whole` says; `trees` are those of all rounds. Never
    dearer, and its floor never lower, than `plan_call` with that budget; more rounds are never worse. Refuses with 1
    to 7, 9 to 13 and 23.

    >>> answer = deep_call(bytes.fromhex("10402001400141000003"), 10_000, 100)
    >>> answer.drive, answer.cost, answer.floor, answer.whole
    ((0, 1), 8, 8, True)
    """
    file = file_bytes(file)
    lent = borrow()
    try:
        unless_refused(library.postman_deep_call(file, len(file), long(budget), word(rounds), *lent.arguments))
        return lent.answer()
    finally:
        give_back(lent)


def short_call(file: File) -> Answer:
    """Lays a drive, trying at most 100,000 trees. Refuses with 1 to 7 and 10 to 13."""
    file = file_bytes(file)
    lent = borrow()
    try:
        unless_refused(_short_call(file, len(file), *lent.arguments))
        return lent.answer()
    finally:
        give_back(lent)


def plan_call_at(file: File, budget: int, windows: Iterable[Window], departure: Departure) -> Answer:
    """Lays a drive that avoids the arcs shut at departure, by up to 128 windows. Its floor is over such drives.

    Refuses with 1 to 7, 9 to 13, 19 and 20. With no window it answers what `plan_call` answers.
    """
    file = file_bytes(file)
    numbers = numbers_of(windows)
    at = word(departure.weekday), word(departure.minute)
    lent = borrow()
    try:
        unless_refused(
            library.postman_plan_call_at(file, len(file), long(budget), numbers, len(numbers), *at, *lent.arguments)
        )
        return lent.answer()
    finally:
        give_back(lent)


def tree_count(file: File) -> int | None:
    """The number of trees, exactly, or None where it is above 4,294,967,295. Refuses with 1 to 7 and 10 to 13.

    A plan call answers `whole` exactly when this number is known and no larger than its budget.
    """
    file = file_bytes(file)
    count = unless_refused(library.postman_tree_count(file, len(file)))
    return count if count <= HIGHEST_COUNT else None


@dataclass(frozen=True, slots=True)
class Distances:
    """The distances of a page of pairs."""

    values: tuple[int | None, ...]
    """The least cost of a path for each pair, in the pairs' order, or None where there is no path."""
    searches: int
    """The searches run: as many as there are distinct first vertices."""


def distances(file: File, pairs: Iterable[tuple[int, int]]) -> Distances:
    """The distances of up to 256 pairs of vertices, each from the first to the second. Refuses with 1 to 7, 13 and 17.

    >>> distances(bytes.fromhex("10402001400141000003"), [(0, 1), (1, 0), (1, 1)])
    Distances(values=(5, 3, 0), searches=2)
    """
    file = file_bytes(file)
    lent_pairs = shorts(PAIR * byte(first) + byte(second) for first, second in pairs)
    entries = (c_uint32 * len(lent_pairs))()
    searches = unless_refused(
        library.postman_distances(file, len(file), lent_pairs, len(lent_pairs), entries, len(entries))
    )
    return Distances(tuple(None if entry == NO_PATH else entry for entry in entries), searches)


def judge(file: File, drive: Iterable[int]) -> int:
    """What a drive costs that someone else laid: the numbers of its arcs, in the order in which they are driven.

    Refuses with 14 if an arc may not be driven, else with 15 if there is a gap, else with 16 if a must arc is missed;
    before that with 1 to 7, 13 and 10, and with 3 above 65,535 places. It goes by the plan's own must arcs, so that a
    drive of `two_cars` need not pass.
    """
    file = file_bytes(file)
    places = shorts(drive)
    return unless_refused(library.postman_judge(file, len(file), places, len(places)))
