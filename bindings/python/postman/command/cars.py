"""Lays a drive for each of two cars on the same streets and shows how the work is
shared. MARKS is a CSV that names the streets which a car checks: by street, or
by from and to. Without marks a split is proposed; --write keeps it, to be
edited."""

from __future__ import annotations

from argparse import ArgumentParser, Namespace
from typing import Any

from ..answer import Answer
from ..cars import Car, two_cars
from ..refusal import Refusal
from ..streets import StreetList
from ..streets.explain import explain, named
from ..streets.marks_file import marks_text, read_marks
from ..streets.steps import steps_of
from ..streets.table import encoded, written
from .deepening import deepest, no_gap
from .directions import COLUMNS, as_object, print_directions, rows_of
from .files import write_files
from .options import WrongUsage, add_budget, add_formats, add_list, opened
from .output import Output, counted, per_cent, plural
from .refused import Refused, explained
from .split import marks_for, propose

EXAMPLE = """\
  postman cars town/streets.csv --first town/first.csv --second town/second.csv
  postman cars town/streets.csv --write first.csv second.csv"""

NAMES = ("first", "second")

Answers = tuple[Answer | Refusal, ...]


def add_arguments(parser: ArgumentParser) -> None:
    add_list(parser)
    parser.add_argument("--first", metavar="MARKS", help="the streets that the first car checks")
    parser.add_argument("--second", metavar="MARKS", help="the streets that the second car checks")
    parser.add_argument("--write", nargs=2, metavar=("FIRST", "SECOND"), help="write both cars' marks to these files")
    parser.add_argument("--force", action="store_true", help="write over marks that are there already")
    add_budget(parser, "as many as half a second allows")
    add_formats(parser, "json", "csv")


def run(args: Namespace, output: Output) -> int:
    if (args.first is None) != (args.second is None):
        raise WrongUsage("--first and --second go together")
    streets = opened(args)
    with explained(streets):
        marks = marks_of(args, streets)
        answers = laid(args, streets, marks)
    if args.write:
        files = [(path, encoded(marks_text(streets, arcs))) for path, arcs in zip(args.write, marks)]
        write_files(files, args.force)
        output.note(f"{args.write[0]} and {args.write[1]}: the marks of both cars")
    if args.format == "json":
        output.json([json_of(streets, answer, arcs) for answer, arcs in zip(answers, marks)])
    elif args.format == "csv":
        output.raw(csv_of(streets, answers, marks))
    else:
        print_cars(output, streets, answers, marks)
    refused = [
        str(Refused(f"{streets.path}, the {name} car", answer, explain(streets, answer, must=sorted(arcs))))
        for name, answer, arcs in zip(NAMES, answers, marks)
        if isinstance(answer, Refusal)
    ]
    if refused:
        from . import REFUSED, complain

        return complain("\n".join(f"postman: {text}" for text in refused), REFUSED)
    return 0


def marks_of(args: Namespace, streets: StreetList) -> list[frozenset[int]]:
    """The arcs that each car checks."""
    if args.first is not None:
        return [read_marks(path, streets) for path in (args.first, args.second)]
    proposed = propose(streets)
    if proposed is None:
        raise WrongUsage("there is nothing to share: name each car's streets by --first and --second")
    return list(proposed)


def laid(args: Namespace, streets: StreetList, marks: list[frozenset[int]]) -> Answers:
    """What the library answers for both cars."""

    def ask(budget: int) -> Answers:
        return two_cars(streets.file, *(Car(marks_for(streets, arcs), budget) for arcs in marks))

    def done(answers: Answers) -> bool:
        return all(isinstance(answer, Refusal) or no_gap(answer) for answer in answers)

    return deepest(ask, done) if args.budget is None else ask(args.budget)


def print_cars(output: Output, streets: StreetList, answers: Answers, marks: list[frozenset[int]]) -> None:
    for name, answer, arcs in zip(NAMES, answers, marks):
        if isinstance(answer, Refusal):
            continue
        output.result(output.style(f"{name} car", "bold"))
        print_directions(output, streets, steps_of(streets, answer.drive, arcs))
        output.result("")
    total = sum(answer.cost for answer in answers if isinstance(answer, Answer))
    rows = [
        (name, plural(len(arcs), streets.unit), *figures(answer, total))
        for name, answer, arcs in zip(NAMES, answers, marks)
    ]
    output.table(
        ("car", "checks", "cost", "share", "floor", "gap", "whole"), rows, right=("cost", "share", "floor", "gap")
    )
    must = frozenset(arc for arc, street in enumerate(streets.streets) if street.must)
    for arcs, what in (
        (must - marks[0] - marks[1], "checked by neither car"),
        (marks[0] & marks[1], "checked by both"),
    ):
        if arcs:
            output.result(f"{what}: {named(streets, sorted(arcs))} ({plural(len(arcs), streets.unit)})")


def figures(answer: Answer | Refusal, total: int) -> tuple[str, ...]:
    if isinstance(answer, Refusal):
        return (f"refusal {answer.number}", "", "", "", "")
    share = per_cent(answer.cost / total) if total else ""
    whole = "yes" if answer.whole else "no"
    return counted(answer.cost), share, counted(answer.floor), per_cent(answer.gap), whole


def json_of(streets: StreetList, answer: Answer | Refusal, marks: frozenset[int]) -> dict[str, Any]:
    if isinstance(answer, Refusal):
        return {"refusal": {"number": answer.number, "word": answer.word}, "marks": sorted(marks)}
    return {**as_object(streets, answer, None, steps_of(streets, answer.drive, marks)), "marks": sorted(marks)}


def csv_of(streets: StreetList, answers: Answers, marks: list[frozenset[int]]) -> str:
    rows = [
        (name, *row[:5], "yes" if row[5] else "", row[6])
        for name, answer, arcs in zip(NAMES, answers, marks)
        if isinstance(answer, Answer)
        for row in rows_of(streets, steps_of(streets, answer.drive, arcs))
    ]
    return written(("car", *COLUMNS), rows)
