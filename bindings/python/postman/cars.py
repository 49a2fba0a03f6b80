"""The call for two cars."""

from __future__ import annotations

from collections.abc import Sequence
from dataclasses import dataclass
from typing import Any

from ._lent import Lent, borrow, byte, give_back, long, unless_refused
from ._library import library
from .answer import Answer
from .limits import FIRST_CAR
from .plan import File, file_bytes
from .refusal import Refusal


@dataclass(frozen=True, slots=True)
class Car:
    """One of two cars on the streets of a plan."""

    marks: Sequence[bool]
    """For each arc of the plan, in its order, whether the car must drive it. The plan's own must arcs play no part, and
    closed arcs may not be marked."""
    budget: int
    """The most trees to try for the car, from 1 to 1,000,000."""

    def __post_init__(self) -> None:
        object.__setattr__(self, "marks", tuple(self.marks))


def two_cars(file: File, first: Car, second: Car) -> tuple[Answer | Refusal, Answer | Refusal]:
    """Lays a drive for each of two cars on the streets of one plan.

    A car is answered what `plan_call` answers for a plan in which its marked arcs, and no others, must be driven: each
    is checked at its checking cost if it has one, else at its cost, even 0. Neither car feels what the other brings.

    Raises a refusal that reaches both cars: 1 to 7 and 13. Else each is answered, or has a refusal of its own in its
    place: 9, 18 and 10 to 12, in this order.
    """
    file = file_bytes(file)
    one, other = borrow(), borrow()
    try:
        number = library.postman_two_cars(file, len(file), *_lend(first, one), *_lend(second, other))
        of_first, of_second = divmod(unless_refused(number), FIRST_CAR)
        return _answered(of_first, one), _answered(of_second, other)
    finally:
        give_back(one)
        give_back(other)


def _lend(car: Car, lent: Lent) -> tuple[Any, ...]:
    marks = bytes(map(byte, car.marks))
    return marks, len(marks), long(car.budget), *lent.arguments


def _answered(refusal: int, lent: Lent) -> Answer | Refusal:
    return Refusal(refusal) if refusal else lent.answer()
