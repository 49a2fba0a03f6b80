"""What each pass of a drive does, as far as the drive itself tells.

The library answers the drive and not why each pass is in it. Told from the drive: the first pass of a must street
checks it; all others are extra. Extra passes come in runs, between one check and the next. Those of a run from one part
to another are called joining, those of a run back into the part it left balancing.
"""

from __future__ import annotations

from collections.abc import Sequence
from dataclasses import dataclass
from enum import Enum

from ..streets.explain import parts_of
from ..streets.steps import steps_of
from ..streets.street_list import StreetList


class Purpose(Enum):
    """What a pass does."""

    CHECK = "check"
    JOINING = "joining"
    BALANCING = "balancing"


@dataclass(frozen=True)
class Pass:
    """One place of a drive: its step, from 1 on, its arc, its cost, what it does, and the parts its run is between."""

    step: int
    arc: int
    cost: int
    purpose: Purpose
    leaves: int
    reaches: int


def corners_of_parts(streets: StreetList) -> list[frozenset[int]]:
    """The corners of each part. Their number is the answer's `parts`."""
    arcs = streets.plan.arcs
    must = [arc for arc, street in enumerate(streets.streets) if street.must]
    parts = parts_of(streets, must)
    return [frozenset(end for arc in part for end in (arcs[arc].tail, arcs[arc].head)) for part in parts]


def passes(streets: StreetList, drive: Sequence[int]) -> tuple[Pass, ...]:
    """The passes of a drive that begins with a check, as the planner's do."""
    part_of = {corner: number for number, part in enumerate(corners_of_parts(streets)) for corner in part}
    arcs = streets.plan.arcs
    steps = steps_of(streets, drive)
    made: list[Pass] = []
    start = 0
    while start < len(steps):
        end = start + 1
        if not steps[start].checked:
            while end < len(steps) and not steps[end].checked:
                end += 1
        leaves, reaches = part_of[arcs[steps[start].arc].tail], part_of[arcs[steps[end - 1].arc].head]
        if steps[start].checked:
            purpose = Purpose.CHECK
        else:
            purpose = Purpose.BALANCING if leaves == reaches else Purpose.JOINING
        made += [Pass(step.number, step.arc, step.cost, purpose, leaves, reaches) for step in steps[start:end]]
        start = end
    return tuple(made)
