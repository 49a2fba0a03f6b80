"""A list with its market days and a departure, to be asked with budgets."""

from __future__ import annotations

from argparse import Namespace
from time import process_time
from typing import TYPE_CHECKING

from ..answer import Answer
from ..calls import deep_call, plan_call, plan_call_at, tree_count
from ..limits import HIGHEST_BUDGET
from ..plan import Plan
from ..refusal import Refusal
from ..streets import StreetList
from ..windows import Departure
from .deepening import deepest, in_rounds, no_gap
from .options import WrongUsage, opened
from .refused import explained

if TYPE_CHECKING:
    from ..streets.table import Row
    from ..streets.windows_file import TypedWindow


class Question:
    """What is asked of the library, and what its refusals mean in the list."""

    def __init__(self, streets: StreetList, windows: str | None = None, departure: Departure | None = None) -> None:
        if (windows is None) != (departure is None):
            raise WrongUsage("--windows and --at go together: when streets are shut, and when the drive begins")
        self.streets = streets
        self.departure = departure
        self.windows: tuple[TypedWindow, ...] = ()
        if windows is not None:
            from ..streets.windows_file import read_windows

            self.windows = read_windows(windows, streets)
        with explained(streets):
            self.file = streets.file

    def ask(self, budget: int) -> Answer:
        """The drive at a budget."""
        with explained(self.streets, self.explain):
            if self.departure is None:
                return plan_call(self.file, budget)
            return plan_call_at(self.file, budget, [typed.window for typed in self.windows], self.departure)

    def ask_deep(self, budget: int, rounds: int) -> Answer:
        """The best drive and the best floor of so many rounds."""
        if self.departure is not None:
            raise WrongUsage("--rounds and --at do not go together: the deep call takes no windows")
        with explained(self.streets, self.explain):
            return deep_call(self.file, budget, rounds)

    def answered(self, budget: int | None, rounds: int | None) -> tuple[Answer, bool]:
        """The answer at a budget and in rounds, as they are asked for, and whether it is one of rounds."""
        if rounds is not None:
            return self.ask_deep(HIGHEST_BUDGET if budget is None else budget, rounds), True
        return self.in_half_a_second() if budget is None else (self.ask(budget), False)

    def in_half_a_second(self) -> tuple[Answer, bool]:
        """The deepest answer that the time allows, and whether it is one of rounds, which take no market days."""
        started = process_time()
        answer = deepest(self.ask, no_gap)
        if no_gap(answer) or answer.trees < HIGHEST_BUDGET or self.departure is not None:
            return answer, False
        found = in_rounds(answer, lambda rounds: self.ask_deep(HIGHEST_BUDGET, rounds), started)
        return (answer, False) if found is None else (found, True)

    def trees(self) -> int | None:
        """The number of trees, or None above what is counted."""
        with explained(self.streets, self.explain):
            if not self.shut:
                return tree_count(self.file)
            # The call takes no windows. An arc that is left out serves no tree, as one that is shut.
            plan = self.streets.plan
            left = tuple(arc for number, arc in enumerate(plan.arcs) if number not in self.shut)
            return tree_count(Plan(plan.vertices, left, plan.edition))

    @property
    def shut(self) -> dict[int, Row]:
        """The arcs that are shut at departure."""
        return shut_arcs(self.windows, self.departure)

    def explain(self, refusal: Refusal) -> str:
        """What a refusal means in the list, at this departure."""
        return explain_at(self.streets, refusal, self.windows, self.departure)


def shut_arcs(windows: tuple[TypedWindow, ...], departure: Departure | None) -> dict[int, Row]:
    """The arcs that are shut at a departure, if there is one, each with the row that shuts it."""
    if departure is None:
        return {}
    from ..streets.windows_file import shut_at

    return shut_at(windows, departure)


def explain_at(
    streets: StreetList, refusal: Refusal, windows: tuple[TypedWindow, ...], departure: Departure | None
) -> str:
    """What a refusal means in a list, at a departure if there is one."""
    if refusal.number == Refusal.MUST_SHUT and departure is not None:
        from ..streets.windows_file import must_shut

        return must_shut(streets, windows, departure)
    from ..streets.explain import explain

    return explain(streets, refusal, shut=shut_arcs(windows, departure))


def asked(args: Namespace) -> Question:
    """The question that the arguments put."""
    return Question(opened(args), args.windows, args.at)
