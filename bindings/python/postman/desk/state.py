"""The state of a desk: the library's open plan, when the drive begins, the budget, and two cars' marks.

Each method is one thing that an editor does. It is done or, by an exception, not at all; what the library refuses
alters nothing. The answer is asked for at once.
"""

from __future__ import annotations

from collections.abc import Sequence
from dataclasses import replace

from ..answer import Answer
from ..calls import judge
from ..cars import Car, two_cars
from ..command.split import marks_for, propose
from ..limits import DAY_MINUTES, DEFAULT_BUDGET, HIGHEST_BUDGET, LAST_WEEKDAY, LONGEST_FILE, MARKS
from ..open_plan import OpenPlan
from ..plan import Arc, Standing
from ..refusal import Refusal
from ..streets.explain import explain
from ..streets.drive_file import TypedDrive, drive_of, explain_drive
from ..streets.street_list import Street, StreetList
from ..streets.windows_file import TypedWindow, must_shut, shut_at
from ..windows import Departure

HIGHEST_COST = 65535


class Wrong(Exception):
    """Something that cannot be done, said to the editor."""


class Desk:
    """A list on the desk. It is not guarded against threads: whoever serves it takes one request at a time."""

    def __init__(
        self,
        streets: StreetList,
        windows: tuple[TypedWindow, ...] = (),
        departure: Departure | None = None,
        budget: int = DEFAULT_BUDGET,
    ) -> None:
        if not 1 <= budget <= HIGHEST_BUDGET:
            raise Refusal(Refusal.BUDGET)
        self.opened = streets
        self._by_ends: dict[tuple[str, str, str], list[int]] = {}
        for arc, street in enumerate(streets.streets):
            self._by_ends.setdefault((street.from_corner, street.to_corner, street.street), []).append(arc)
        self.plan = OpenPlan.open(streets.file)
        self.windows = windows
        self.departure = departure
        self.budget = budget
        self.cars: tuple[frozenset[int], frozenset[int]] = (frozenset(), frozenset())
        self.serial = 0
        self.before: Answer | Refusal | None = None
        self.result: Answer | Refusal = self._asked(self.plan)

    # What is shown

    @property
    def streets(self) -> StreetList:
        """The list as the open plan has it."""
        return self._list_of(self.plan.plan.arcs)

    @property
    def shut(self) -> frozenset[int]:
        """The arcs that are shut at the departure."""
        return frozenset(shut_at(self.windows, self.departure)) if self.departure else frozenset()

    def marks(self) -> list[Answer | Refusal | None]:
        """What is answered at each mark, and None for those that were never set."""
        state = self.plan.to_bytes()
        found: list[Answer | Refusal | None] = []
        for mark in range(MARKS):
            # include/postman.h: five files, each with two bytes for its length; the first is that of the open plan.
            at = (mark + 1) * (LONGEST_FILE + 2)
            if state[at : at + 2] == b"\0\0":
                found.append(None)
            else:
                there = OpenPlan.from_bytes(state)
                there.return_to(mark)
                found.append(self._asked(there))
        return found

    def of_cars(self) -> tuple[Answer | Refusal, Answer | Refusal] | None:
        """What is answered for the two cars, or None before any street was painted."""
        if not any(self.cars):
            return None
        first, second = (Car(marks_for(self.opened, marks), self.budget) for marks in self.cars)
        return two_cars(self.plan.file, first, second)

    def explain(self, refusal: Refusal, must: Sequence[int] | None = None) -> str:
        """What a refusal means in the list as it is now."""
        if refusal.number == Refusal.MUST_SHUT and self.departure:
            return must_shut(self.streets, self.windows, self.departure)
        return explain(self.streets, refusal, must=must, shut=() if must is not None else self.shut)

    # What is done

    def change(
        self, arcs: Sequence[int], standing: str | None = None, cost: int | None = None, checking: int | None = None
    ) -> None:
        """Changes arcs, all or none. `standing` is must, may, closed or open: as it was in the list, and not closed."""
        for number in (cost, checking):
            if number is not None and not 0 <= number <= HIGHEST_COST:
                raise Wrong(f"{number} is not a cost: it is 0 to {HIGHEST_COST}")
        trial = OpenPlan.from_bytes(self.plan.to_bytes())
        for number in arcs:
            arcs_now = list(trial.plan.arcs)
            if not 0 <= number < len(arcs_now):
                raise Refusal(Refusal.FOREIGN)
            arc = arcs_now[number] = self._changed(number, arcs_now[number], standing, cost, checking)
            try:
                trial.change(number, arc.cost, arc.checking, arc.standing)
            except Refusal as refusal:
                told = explain(self._list_of(arcs_now), refusal)
                raise Wrong(f"refusal {refusal.number}, {refusal.word}: {told}") from None
        self._now(trial)

    def way_back(self, arc: int) -> list[int]:
        """The arcs of the same street in the other direction."""
        street = self.opened.streets[arc]
        if street.from_corner == street.to_corner:
            return []
        return self._by_ends.get((street.to_corner, street.from_corner, street.street), [])

    def mark(self, mark: int) -> None:
        """Sets a mark."""
        self.plan.mark(mark)
        self.serial += 1

    def return_to(self, mark: int) -> None:
        """Returns to a mark."""
        trial = OpenPlan.from_bytes(self.plan.to_bytes())
        trial.return_to(mark)
        self._now(trial)

    def depart(self, weekday: int | None, minute: int | None) -> None:
        """Sets the departure; None for no market day."""
        if weekday is None or minute is None:
            self.departure = None
        else:
            if not self.windows:
                raise Wrong("no market days are known: start the desk with --windows CSV")
            if not (0 <= weekday <= LAST_WEEKDAY and 0 <= minute < DAY_MINUTES):
                raise Wrong("a departure is a weekday from 0 to 6 and a minute from 0 to 1439")
            self.departure = Departure(weekday, minute)
        self._now(self.plan)

    def spend(self, budget: int) -> None:
        """Sets the budget."""
        if not 1 <= budget <= HIGHEST_BUDGET:
            raise Wrong(f"a budget is 1 to {HIGHEST_BUDGET:,} trees")
        self.budget = budget
        self._now(self.plan)

    def paint(self, car: int, arcs: Sequence[int]) -> None:
        """Gives arcs to a car, or takes them from it if it has the first of them. An arc is one car's at most."""
        if car not in (0, 1):
            raise Wrong("there are two cars, 0 and 1")
        now = self.plan.plan.arcs
        for arc in arcs:
            if not 0 <= arc < len(now):
                raise Refusal(Refusal.FOREIGN)
        if arcs and arcs[0] in self.cars[car]:
            own, other = self.cars[car] - set(arcs), self.cars[1 - car]
        else:
            given = {arc for arc in arcs if now[arc].standing is not Standing.CLOSED}
            if not given:
                raise Wrong("the street is closed, and no car can check it")
            own, other = self.cars[car] | given, self.cars[1 - car] - given
        self.cars = (own, other) if car == 0 else (other, own)
        self.serial += 1

    def share(self) -> None:
        """Gives every must street to one of the cars, as the command `cars` proposes."""
        proposed = propose(self.streets)
        if proposed is None:
            raise Wrong("there is nothing to share")
        self.cars = proposed
        self.serial += 1

    def clear(self) -> None:
        """Takes all marks from both cars."""
        self.cars = (frozenset(), frozenset())
        self.serial += 1

    def judge(self, text: str) -> tuple[int | None, str]:
        """What a pasted drive costs on the plan as it is now; or None and its first fault."""
        drive: TypedDrive = drive_of("the pasted list", text.encode("utf-8"), self.streets)
        try:
            return judge(self.plan.file, drive.arcs), ""
        except Refusal as refusal:
            told = explain_drive(self.streets, drive, refusal)
            return None, f"refusal {refusal.number}, {refusal.word}: {told}"

    # How

    def _now(self, plan: OpenPlan) -> None:
        """The plan is this from now on, and asked."""
        self.plan = plan
        self.before, self.result = self.result, self._asked(plan)
        closed = {number for number, arc in enumerate(plan.plan.arcs) if arc.standing is Standing.CLOSED}
        self.cars = (self.cars[0] - closed, self.cars[1] - closed)
        self.serial += 1

    def _asked(self, plan: OpenPlan) -> Answer | Refusal:
        try:
            if self.departure is None:
                return plan.ask(self.budget)
            return plan.ask(self.budget, [typed.window for typed in self.windows], self.departure)
        except Refusal as refusal:
            return refusal

    def _list_of(self, arcs: Sequence[Arc]) -> StreetList:
        """The opened list with these arcs' standings and costs."""
        return replace(self.opened, streets=tuple(map(self._as_now, self.opened.streets, arcs)))

    def _as_now(self, street: Street, arc: Arc) -> Street:
        checked = self.opened.edition == 2 and arc.standing is Standing.MUST
        return replace(street, standing=arc.standing, cost=arc.cost, checking=arc.checking if checked else None)

    def _changed(self, number: int, arc: Arc, standing: str | None, cost: int | None, checking: int | None) -> Arc:
        """An arc as it is to be. One that becomes must is checked at what the list said, else at its cost."""
        wanted = arc.standing if standing is None else self._standing(number, standing)
        price = arc.cost if cost is None else cost
        if wanted is not Standing.MUST or self.opened.edition == 1:
            if checking is not None:
                raise Wrong("only a must street of a list with checking costs has one")
            return Arc(arc.tail, arc.head, wanted, price)
        if checking is None:
            checking = arc.checking if arc.standing is Standing.MUST else self.opened.streets[number].checking
        return Arc(arc.tail, arc.head, wanted, price, price if checking is None else checking)

    def _standing(self, number: int, standing: str) -> Standing:
        if standing == "open":
            was = self.opened.streets[number].standing
            return Standing.MAY if was is Standing.CLOSED else was
        found: dict[str, Standing] = {one.name.lower(): one for one in Standing}
        if standing not in found:
            raise Wrong(f"{standing} is no standing: it is must, may, closed or open")
        return found[standing]
