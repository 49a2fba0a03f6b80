"""Plan files as street lists: corners and arcs go by their numbers."""

from __future__ import annotations

from ..plan import Plan, Standing
from ..refusal import Refusal
from .errors import ListError
from .street_list import Corner, Street, StreetList
from .table import read_bytes


class PlanFileError(ListError):
    """A plan file that the proved reader refuses."""

    def __init__(self, path: str, refusal: Refusal) -> None:
        self.refusal = refusal
        super().__init__(f"{refusal}. {refusal.advice}", path)


def read_plan_file(path: str, data: bytes | None = None) -> StreetList:
    """Reads a plan file."""
    try:
        plan = Plan.read(read_bytes(path) if data is None else data)
    except Refusal as refusal:
        raise PlanFileError(path, refusal) from None
    corners = tuple(Corner(str(number)) for number in range(plan.vertices))
    streets = tuple(
        Street(
            number,
            str(arc.tail),
            str(arc.head),
            arc.standing,
            arc.cost,
            arc.checking if plan.edition == 2 and arc.standing is Standing.MUST else None,
            f"arc {number}",
        )
        for number, arc in enumerate(plan.arcs)
    )
    return StreetList(path, plan.edition, corners, streets, None, "arc")
