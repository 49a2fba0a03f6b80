"""A proposal how two cars share the streets of a plan.

One drive for one car is cut in two: the streets that it checks on a stretch of it go to the first car, the others to
the second. Of many such cuts the one is taken in which the dearer of the two drives is cheapest. What drives cost is
the library's to say.
"""

from __future__ import annotations

from collections.abc import Collection

from ..answer import Answer
from ..calls import plan_call
from ..cars import Car, two_cars
from ..streets.steps import steps_of
from ..streets.street_list import StreetList

BUDGET = 1000
"""The budget at which cuts are compared."""

MOST_CUTS = 300


def marks_for(streets: StreetList, arcs: Collection[int]) -> list[bool]:
    """A car's marks: one for each arc."""
    return [arc in arcs for arc in range(len(streets.streets))]


def cuts_of(order: list[int]) -> list[tuple[frozenset[int], frozenset[int]]]:
    """Stretches of about half the streets, from any street on, and what is left."""
    count = len(order)
    lengths = sorted({max(1, count // 2 - step * count // 16) for step in range(4)})
    cuts = [
        frozenset(order[(start + place) % count] for place in range(length))
        for length in lengths
        for start in range(count)
    ]
    kept = cuts[:: -(-len(cuts) // MOST_CUTS)]
    return [(cut, frozenset(order) - cut) for cut in kept]


def propose(streets: StreetList) -> tuple[frozenset[int], frozenset[int]] | None:
    """The streets of the first car and those of the second, or None where there is nothing to share."""
    drive = plan_call(streets.file, BUDGET).drive
    order = [step.arc for step in steps_of(streets, drive) if step.checked]
    if len(order) < 2:
        return None
    best = None
    for first, second in cuts_of(order):
        cars = (Car(marks_for(streets, first), BUDGET), Car(marks_for(streets, second), BUDGET))
        answers = two_cars(streets.file, *cars)
        costs = [answer.cost for answer in answers if isinstance(answer, Answer)]
        if len(costs) < 2:
            continue
        if best is None or (max(costs), sum(costs)) < best[0]:
            best = ((max(costs), sum(costs)), first, second)
    return None if best is None else (best[1], best[2])
