"""What a call answers for a plan that is not refused."""

from __future__ import annotations

from dataclasses import dataclass
from math import inf


@dataclass(frozen=True, slots=True)
class Answer:
    """A drive, what it costs, and a floor under every drive."""

    cost: int
    """What the drive costs: one pass of each must arc at its checking cost, every other pass at the arc's cost."""
    floor: int
    """No drive costs less, laid by anyone."""
    trees: int
    """Trees tried."""
    whole: bool
    """Whether these are all trees. Then the floor is the cost, and no drive is cheaper."""
    parts: int
    """The plan's parts: the vertices of must arcs, joined by these."""
    drive: tuple[int, ...]
    """Numbers of arcs in the order in which they are driven, the lowest must arc first. It ends where it begins."""
    multipliers: tuple[int, ...]
    """One multiplier for each of 64 vertices, 0 where no must arc begins or ends."""

    @property
    def places(self) -> int:
        """How many places the drive takes."""
        return len(self.drive)

    @property
    def gap(self) -> float:
        """By how much of the floor the cost lies above it: the drive is at most this much dearer than the cheapest."""
        if self.cost == self.floor:
            return 0.0
        return (self.cost - self.floor) / self.floor if self.floor else inf
