"""The commands of an editing session over a list. The library's open plan holds the plan and its marks."""

from __future__ import annotations

from collections.abc import Callable
from dataclasses import replace
from pathlib import Path
from typing import TYPE_CHECKING

from ..answer import Answer
from ..limits import MARKS
from ..open_plan import OpenPlan
from ..plan import Arc, Standing
from ..refusal import Refusal
from ..streets import StreetList
from ..streets.csv_file import files_of
from ..streets.errors import ListError, clipped, nearest
from ..streets.numerals import whole_of
from ..streets.steps import steps_of
from ..streets.street_list import HIGHEST_COST, Street
from ..streets.table import name_of
from ..windows import Departure
from .deepening import deepest, no_gap
from .directions import advice, print_directions
from .files import write_files
from .output import Output, counted, per_cent
from .question import explain_at

if TYPE_CHECKING:
    from ..streets.windows_file import TypedWindow

HELP = """\
close STREET           no drive passes it
open STREET            as it is in the list, or may where it is closed there
must STREET [CHECKING] it must be checked, at this checking cost
may STREET             it may be driven and need not be
cost STREET COST       what a pass costs
checking STREET COST   what the pass costs on which it is checked
show [STREET]          the streets that were changed, or those of a name
ask [BUDGET]           cost, floor and gap now, and what changed
drive                  the directions of the drive that was asked for last
at WHEN                depart then, such as: at tue 09:30 (with --windows)
mark [0-3]             keep the plan as it is now
return [0-3]           go back to a mark; marks stay
undo                   take back the last change, mark or return
save FILE [over]       write the list as it is now; over writes over a file
quit                   end

A STREET is a name, a name from CORNER to CORNER, or row NUMBER."""


class Failed(Exception):
    """A command that was not obeyed, and the exit status that it would end a script with."""

    def __init__(self, message: str, status: int = 2) -> None:
        self.status = status
        super().__init__(message)


class Editor:
    """An editing session. A `careful` one does not end at once while changes are not saved."""

    def __init__(self, streets: StreetList, windows: str | None, budget: int | None, output: Output) -> None:
        self.streets = streets
        self.output = output
        self.budget = budget
        self.plan = OpenPlan.open(streets.file)
        self.before: list[bytes] = []
        self.windows: tuple[TypedWindow, ...] = ()
        if windows is not None:
            from ..streets.windows_file import read_windows

            self.windows = read_windows(windows, streets)
        self.departure: Departure | None = None
        self.asked: Answer | None = None
        self.saved = self.plan.file
        self.careful = False
        self.ended = False

    def obey(self, line: str) -> Failed | None:
        """Obeys one command, and answers what is wrong with it if it fails."""
        line = line.strip()
        if not line or line.startswith("#"):
            return None
        word, _, rest = line.partition(" ")
        command = COMMANDS.get(word.lower())
        try:
            if command is None:
                raise Failed(f"{word} is no command{nearest(word.lower(), COMMANDS) or '; help lists them'}")
            command(self, rest.strip())
        except Failed as failed:
            return failed
        except ListError as error:
            return Failed(str(error))
        except Refusal as refusal:
            return self.refused(self.now(), refusal)
        return None

    def refused(self, streets: StreetList, refusal: Refusal) -> Failed:
        """A refusal in the list's own words."""
        told = explain_at(streets, refusal, self.windows, self.departure)
        return Failed(f"refusal {refusal.number}, {refusal.word}: {told}", 1)

    def now(self) -> StreetList:
        """The list as it is now."""
        streets = tuple(map(self.changed, self.streets.streets, self.plan.plan.arcs))
        return replace(self.streets, streets=streets)

    def changed(self, street: Street, arc: Arc) -> Street:
        """A street with an arc's standing and costs."""
        checked = self.streets.edition == 2 and arc.standing is Standing.MUST
        return replace(street, standing=arc.standing, cost=arc.cost, checking=arc.checking if checked else None)

    # Streets

    def arcs_of(self, text: str) -> list[int]:
        """The arcs that a text names: "Mill Lane", "Mill Lane from Mill Yard to Weir Steps", "row 12"."""
        if not text:
            raise Failed("name a street")
        found = self.found(text)
        if not found:
            names = [saying for street in self.streets.streets for saying in sayings(street)]
            raise Failed(f"{text} is no street of {self.streets.path}{nearest(name_of(text), names)}")
        return found

    def found(self, text: str) -> list[int]:
        """The arcs that a text names, if any."""
        unit, _, number = text.partition(" ")
        row = whole_of(number.strip())
        if unit.lower() == self.streets.unit and row is not None:
            return [arc for arc, street in enumerate(self.streets.streets) if street.row == row]
        wanted = name_of(text).lower()
        streets = enumerate(self.streets.streets)
        return [arc for arc, street in streets if wanted in map(str.lower, sayings(street))]

    def with_number(self, text: str) -> tuple[list[int], int]:
        """Streets and a cost behind them."""
        name, _, written = text.rpartition(" ")
        number = whole_of(written)
        if number is None:
            raise Failed(f"{clipped(written) or 'nothing'} is not a whole number: write the street, then the number")
        if number > HIGHEST_COST:
            raise Failed(f"{clipped(written)} is above {HIGHEST_COST}")
        return self.arcs_of(name.strip()), number

    def change(self, arcs: list[int], changed: Callable[[int, Street], Street]) -> None:
        """Changes streets, all of them or, if one is refused, none."""
        state = self.plan.to_bytes()
        now = list(self.now().streets)
        for number, street in [(number, changed(number, now[number])) for number in arcs]:
            now[number] = street
            try:
                self.plan.change(number, street.cost, street.checked_at, street.standing)
            except Refusal as refusal:
                self.plan = OpenPlan.from_bytes(state)
                raise self.refused(replace(self.streets, streets=tuple(now)), refusal) from None
        self.before.append(state)
        for number in arcs:
            self.output.result(self.said(number))

    def said(self, number: int) -> str:
        """A street as it is now."""
        street = self.now().streets[number]
        checking = "" if street.checking is None else f", checking {counted(street.checking)}"
        return f"{self.streets.leg(number)}: {street.standing.name.lower()}, cost {counted(street.cost)}{checking}"

    # Commands

    def close(self, text: str) -> None:
        self.change(self.arcs_of(text), lambda _, street: replace(street, standing=Standing.CLOSED, checking=None))

    def open(self, text: str) -> None:
        def opened(number: int, street: Street) -> Street:
            listed = self.streets.streets[number]
            standing = Standing.MAY if listed.standing is Standing.CLOSED else listed.standing
            return replace(street, standing=standing, checking=listed.checking)

        now = self.now().streets
        closed = [number for number in self.arcs_of(text) if now[number].standing is Standing.CLOSED]
        if not closed:
            raise Failed(f"{text} is not closed")
        self.change(closed, opened)

    def must(self, text: str) -> None:
        given = None
        if whole_of(text.rpartition(" ")[2]) is not None and not self.found(text):
            arcs, given = self.with_number(text)
            self.need_checking_costs()
        else:
            arcs = self.arcs_of(text)

        def required(number: int, street: Street) -> Street:
            known = (given, street.checking, self.streets.streets[number].checking)
            checking = next((cost for cost in known if cost is not None), None)
            if self.streets.edition == 2 and checking is None:
                raise Failed(f"what does it cost to check {self.streets.leg(number)}? write: must STREET CHECKING")
            return replace(street, standing=Standing.MUST, checking=checking)

        self.change(arcs, required)

    def need_checking_costs(self) -> None:
        if self.streets.edition == 1:
            raise Failed(f"{self.streets.path} has no checking costs: its list has no such column")

    def may(self, text: str) -> None:
        self.change(self.arcs_of(text), lambda _, street: replace(street, standing=Standing.MAY, checking=None))

    def cost(self, text: str) -> None:
        arcs, cost = self.with_number(text)
        self.change(arcs, lambda _, street: replace(street, cost=cost))

    def checking(self, text: str) -> None:
        arcs, cost = self.with_number(text)
        self.need_checking_costs()
        now = self.now().streets
        arcs = [number for number in arcs if now[number].must]
        if not arcs:
            raise Failed("only a must street has a checking cost")
        self.change(arcs, lambda _, street: replace(street, checking=cost))

    def show(self, text: str) -> None:
        now = self.now().streets
        if text:
            arcs = self.arcs_of(text)
        else:
            arcs = [number for number, street in enumerate(self.streets.streets) if street != now[number]]
            if not arcs:
                self.output.result("nothing was changed")
        for number in arcs:
            self.output.result(self.said(number))

    def ask(self, text: str) -> None:
        budget = self.budget
        if text:
            budget = whole_of(text)
            if budget is None:
                raise Failed(f"{clipped(text)} is not a whole number: write ask, or ask and a budget")
        last = self.asked
        self.asked = deepest(self.answered, no_gap) if budget is None else self.answered(budget)
        answer = self.asked
        cost = f"cost {counted(answer.cost)}{difference(last, answer, 'cost')}"
        floor = f"floor {counted(answer.floor)}{difference(last, answer, 'floor')}"
        self.output.result(f"{cost}, {floor}, gap {per_cent(answer.gap)}")
        unfinished = f"{counted(answer.trees)} trees were tried, and not all."
        self.output.result(advice(answer, None) if answer.cost == answer.floor else unfinished)

    def answered(self, budget: int) -> Answer:
        if self.departure is None:
            return self.plan.ask(budget)
        return self.plan.ask(budget, [typed.window for typed in self.windows], self.departure)

    def drive(self, text: str) -> None:
        if self.asked is None:
            raise Failed("ask first")
        print_directions(self.output, self.streets, steps_of(self.now(), self.asked.drive))

    def at(self, text: str) -> None:
        from ..streets.windows_file import departure_of

        if not self.windows:
            raise Failed("no market days are known: start with --windows CSV")
        try:
            self.departure = departure_of(text) if text else None
        except ValueError as error:
            raise Failed(str(error)) from None

    def mark(self, text: str) -> None:
        state = self.plan.to_bytes()
        self.plan.mark(mark_of(text))
        self.before.append(state)

    def return_to(self, text: str) -> None:
        state = self.plan.to_bytes()
        self.plan.return_to(mark_of(text))
        self.before.append(state)

    def undo(self, text: str) -> None:
        if not self.before:
            raise Failed("there is nothing to take back")
        self.plan = OpenPlan.from_bytes(self.before.pop())

    def save(self, text: str) -> None:
        path, _, over = text.rpartition(" ")
        if over != "over":
            path = text
        if not path:
            raise Failed("name the file to be written")
        now = self.now()
        if now.file != self.plan.file:
            raise Failed("the list is not the plan that is open")
        if Path(path).suffix.lower() == ".plan":
            files = {path: now.file}
        else:
            files = {one: data for one, data in files_of(now, path).items() if one == path or not holds(one, data)}
        write_files(files.items(), over == "over", f"save {path} over writes over it")
        self.saved = self.plan.file
        self.output.note(f"{' and '.join(files)} {'is' if len(files) == 1 else 'are'} written")

    def help(self, text: str) -> None:
        self.output.result(HELP)

    def quit(self, text: str) -> None:
        if self.careful and self.plan.file != self.saved:
            self.saved = self.plan.file
            raise Failed("changes are not saved: save FILE keeps them, and quit once more leaves them")
        self.ended = True

    def completions(self, text: str) -> list[str]:
        """What a line that begins with `text` may go on to be."""
        word, space, rest = text.partition(" ")
        if not space:
            return [command for command in COMMANDS if command.startswith(word)]
        names = dict.fromkeys(street.name for street in self.streets.streets)
        return [f"{word} {name}" for name in names if name.lower().startswith(rest.lower())]


def sayings(street: Street) -> tuple[str, ...]:
    """The ways in which a street is named."""
    ends = f"from {street.from_corner} to {street.to_corner}"
    full = (
        f"{street.street} {ends}",
        f"{street.street} from {street.from_corner}",
        f"{street.street} to {street.to_corner}",
    )
    return (street.street, *full, ends) if street.street else (ends,)


def difference(last: Answer | None, answer: Answer, word: str) -> str:
    """By how much a number is another than when it was asked for last."""
    if last is None:
        return ""
    more = getattr(answer, word) - getattr(last, word)
    return f" ({more:+,})" if more else " (as before)"


def holds(path: str, data: bytes) -> bool:
    """Whether a file holds this already."""
    try:
        return Path(path).read_bytes() == data
    except OSError:
        return False


def mark_of(text: str) -> int:
    """The number of a mark, 0 where none is said."""
    if not text:
        return 0
    mark = whole_of(text)
    if mark is None:
        raise Failed(f"{clipped(text)} is no mark: there are marks 0 to {MARKS - 1}")
    return mark


COMMANDS: dict[str, Callable[[Editor, str], None]] = {
    "close": Editor.close,
    "open": Editor.open,
    "must": Editor.must,
    "may": Editor.may,
    "cost": Editor.cost,
    "checking": Editor.checking,
    "show": Editor.show,
    "ask": Editor.ask,
    "drive": Editor.drive,
    "at": Editor.at,
    "mark": Editor.mark,
    "return": Editor.return_to,
    "undo": Editor.undo,
    "save": Editor.save,
    "help": Editor.help,
    "quit": Editor.quit,
}
