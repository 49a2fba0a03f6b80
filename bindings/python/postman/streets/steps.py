"""A drive as steps: which pass of a must street checks it, and what each pass costs."""

from __future__ import annotations

from collections.abc import Iterable
from typing import NamedTuple

from .street_list import StreetList


class Step(NamedTuple):
    """One place of a drive."""

    number: int
    """From 1 on."""
    arc: int
    """The arc's number."""
    checked: bool
    """Whether the street is checked on this pass: the first one along a street that must be driven."""
    cost: int
    """What this pass costs."""


def steps_of(streets: StreetList, drive: Iterable[int], must: frozenset[int] | None = None) -> list[Step]:
    """The steps of a drive. `must` are the arcs that must be driven, where they are not the list's own."""
    if must is None:
        must = frozenset(arc for arc, street in enumerate(streets.streets) if street.must)
    seen: set[int] = set()
    steps = []
    for number, arc in enumerate(drive, 1):
        street = streets.streets[arc]
        checked = arc in must and arc not in seen
        seen.add(arc)
        cost = street.checking if checked and street.checking is not None else street.cost
        steps.append(Step(number, arc, checked, cost))
    return steps
