"""The results of a run, added up."""

from __future__ import annotations

from dataclasses import dataclass, field

from .result import Result


@dataclass
class Group:
    """Plans of one fate: how many they are, and the one that comes first by its name."""

    plans: int = 0
    first: str = ""

    def add(self, file: str) -> None:
        self.plans += 1
        self.first = min(self.first, file) if self.first else file


@dataclass
class Summary:
    """What came of all plans. The sums are over those that have a drive."""

    plans: int = 0
    drives: int = 0
    whole: int = 0
    cost: int = 0
    floor: int = 0
    refusals: dict[int, Group] = field(default_factory=dict)
    """By the refusals' numbers."""
    no_plans: Group = field(default_factory=Group)
    """Files that are no plans."""
    seconds: float = 0.0
    """What the plan calls took together."""
    slowest: Result | None = None

    def add(self, result: Result) -> None:
        self.plans += 1
        if result.numbers is not None:
            self.drives += 1
            self.whole += result.numbers.whole
            self.cost += result.numbers.cost
            self.floor += result.numbers.floor
        elif result.refusal is not None:
            self.refusals.setdefault(result.refusal, Group()).add(result.file)
        else:
            self.no_plans.add(result.file)
        if result.seconds is not None:
            self.seconds += result.seconds
            if self.slowest is None or result.seconds > (self.slowest.seconds or 0):
                self.slowest = result

    @property
    def gap(self) -> float | None:
        """By how much of all floors all costs lie above them."""
        return (self.cost - self.floor) / self.floor if self.floor else None
