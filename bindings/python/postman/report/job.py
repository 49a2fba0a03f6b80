"""What a report is about: a list, its answer, and what else was asked of the library."""

from __future__ import annotations

from collections.abc import Sequence
from dataclasses import dataclass
from datetime import date

from ..answer import Answer
from ..picture.base import name_of
from ..streets.street_list import StreetList
from ..streets.windows_file import TypedWindow, shut_at
from ..windows import Departure
from .market_days import Spell


@dataclass(frozen=True)
class Job:
    """A list with its answer. `trees` is the number of trees, None where it is above what is counted; `deep` says that
    the answer is one of rounds."""

    streets: StreetList
    answer: Answer
    trees: int | None
    budgets: Sequence[tuple[int, Answer]]
    windows: tuple[TypedWindow, ...] = ()
    departure: Departure | None = None
    spells: Sequence[Spell] = ()
    deep: bool = False
    title: str = ""
    made: date | None = None

    @property
    def name(self) -> str:
        """What the report is called."""
        return self.title or name_of(self.streets)

    @property
    def shut(self) -> frozenset[int]:
        """The arcs that are shut at the departure."""
        return frozenset(shut_at(self.windows, self.departure)) if self.departure else frozenset()
