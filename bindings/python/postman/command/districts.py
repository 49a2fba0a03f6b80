"""Lays drives for districts in turn: 1000 trees a turn, so that no district waits
for the long search of another. Eight are in line at once; more lists wait until
one has finished. On a terminal each has a progress bar."""

from __future__ import annotations

from argparse import ArgumentParser, Namespace
from pathlib import Path
from typing import Any, NamedTuple

from ..answer import Answer
from ..calls import tree_count
from ..districts import Districts
from ..limits import DEFAULT_BUDGET, HIGHEST_COUNT, MOST_DISTRICTS
from ..refusal import Refusal
from ..streets import StreetList, open_list
from ..streets.errors import ListError
from ..streets.steps import steps_of
from ..streets.table import encoded, written
from .directions import as_csv, as_object
from .files import folder_of, write_files
from .options import add_budget, add_corners, add_formats, add_quiet
from .output import Output, counted, per_cent
from .progress import Bars
from .refused import Refused, explained

EXAMPLE = """\
  postman districts town/districts/*.csv
  postman districts town/districts/*.csv --drives drives"""

COLUMNS = ("district", "cost", "floor", "gap", "trees", "whole", "turns")


class Laid(NamedTuple):
    """A list and its drive."""

    streets: StreetList
    answer: Answer


class District:
    """A list on its way through the machine: in the end its drive is laid, or something is wrong."""

    def __init__(self, name: str, path: str) -> None:
        self.name = name
        self.path = path
        self.trees = 1
        self.turns = 0
        self.laid: Laid | None = None
        self.wrong: Exception | None = None


def add_arguments(parser: ArgumentParser) -> None:
    parser.add_argument("lists", metavar="LIST", nargs="+", help="street lists, plan files or maps, one a district")
    add_corners(parser)
    add_quiet(parser)
    add_budget(parser, str(DEFAULT_BUDGET))
    parser.add_argument("--turns", action="store_true", help="print each turn as it is taken")
    parser.add_argument("--drives", metavar="FOLDER", help="write each district's drive there as CSV")
    parser.add_argument("--force", action="store_true", help="write over drives that are there already")
    add_formats(parser, "json", "csv")


def run(args: Namespace, output: Output) -> int:
    districts = [District(name, path) for name, path in zip(names_of(args.lists), args.lists)]
    bars = Bars([district.name for district in districts], output.progress and not args.turns)
    budget = DEFAULT_BUDGET if args.budget is None else args.budget
    take_turns(districts, budget, args, output, bars)
    bars.end()
    if args.drives is not None:
        folder = folder_of(args.drives)
        drives = [(str(folder / f"{one.name}.csv"), drive_of(one.laid)) for one in districts if one.laid is not None]
        write_files(drives, args.force)
        output.note(f"{args.drives}: {len(drives)} drives")
    print_districts(args, output, districts)
    return status_of(districts)


def names_of(paths: list[str]) -> list[str]:
    """The districts' names: those of their files, with a number where one occurred before: hill, hill-2."""
    names: dict[str, None] = {}
    for path in paths:
        stem, count = Path(path).stem, 1
        name = stem
        while name in names:
            count += 1
            name = f"{stem}-{count}"
        names[name] = None
    return list(names)


def take_turns(districts: list[District], budget: int, args: Namespace, output: Output, bars: Bars) -> None:
    """Turn after turn, until all have finished; who is refused is passed over."""
    machine = Districts()
    waiting = list(enumerate(districts))
    inside: dict[int, tuple[int, StreetList]] = {}
    while waiting or inside:
        while waiting and len(inside) < MOST_DISTRICTS:
            number, district = waiting.pop(0)
            entered = enter(machine, district, budget, args.corners)
            if entered is not None:
                inside[entered[0]] = (number, entered[1])
        turn = machine.turn()
        if turn is None:
            continue
        number, streets = inside[turn.place]
        district = districts[number]
        district.turns += 1
        if turn.answer is not None:
            district.laid = Laid(streets, turn.answer)
            del inside[turn.place]
        bars.set(number, turn.trees / district.trees, f"cost {counted(turn.cost)}")
        if args.turns and args.format is None:
            ending = ", finished" if turn.finished else ""
            output.result(f"{district.name}: {counted(turn.trees)} trees, cost {counted(turn.cost)}{ending}")


def enter(machine: Districts, district: District, budget: int, corners: str | None) -> tuple[int, StreetList] | None:
    """A district enters: its place and its list, or None where it is refused."""
    try:
        streets = open_list(district.path, corners)
        with explained(streets):
            place = machine.enter(streets.file, budget)
            district.trees = min(budget, tree_count(streets.file) or HIGHEST_COUNT)
        return place, streets
    except (Refused, ListError) as wrong:
        district.wrong = wrong
        return None


def drive_of(laid: Laid) -> bytes:
    return encoded(as_csv(laid.streets, steps_of(laid.streets, laid.answer.drive)))


def print_districts(args: Namespace, output: Output, districts: list[District]) -> None:
    if args.format == "json":
        output.json([json_of(district) for district in districts])
        return
    rows = [row_of(district, district.laid.answer) for district in districts if district.laid is not None]
    if args.format == "csv":
        output.raw(written(COLUMNS, ((*row[:3], f"{row[3]:.6f}", *row[4:]) for row in rows)))
    elif rows:
        texts = [
            (name, counted(cost), counted(floor), per_cent(gap), counted(trees), whole, turns)
            for name, cost, floor, gap, trees, whole, turns in rows
        ]
        output.table(COLUMNS, texts, right=("cost", "floor", "gap", "trees", "turns"))


def row_of(district: District, answer: Answer) -> tuple[str, int, int, float, int, str, int]:
    """A district under COLUMNS."""
    whole = "yes" if answer.whole else "no"
    return district.name, answer.cost, answer.floor, answer.gap, answer.trees, whole, district.turns


def json_of(district: District) -> dict[str, Any]:
    common = {"district": district.name, "list": district.path}
    if district.laid is None:
        refusal: Refusal | None = getattr(district.wrong, "refusal", None)
        told = None if refusal is None else {"number": refusal.number, "word": refusal.word}
        return {**common, "refusal": told, "error": str(district.wrong)}
    return {**common, "turns": district.turns, **as_object(*district.laid, None)}


def status_of(districts: list[District]) -> int:
    """Says who could not be laid a drive for."""
    from . import ANSWERED, REFUSED, WRONG_USAGE, complain

    status = ANSWERED
    for district in districts:
        if district.wrong is not None:
            refusal = getattr(district.wrong, "refusal", None)
            status = max(status, complain(f"postman: {district.wrong}", WRONG_USAGE if refusal is None else REFUSED))
    return status
