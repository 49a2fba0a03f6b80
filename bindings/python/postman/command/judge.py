"""Judges a drive that somebody else laid: says what it costs, or its first fault
by street name. DRIVE is what `postman drive` writes as CSV or JSON, a CSV with
the columns from, to and street, or arc numbers, one a line."""

from __future__ import annotations

from argparse import ArgumentParser, Namespace

from ..answer import Answer
from ..calls import judge, plan_call
from ..refusal import Refusal
from ..streets.drive_file import explain_drive, read_drive
from .deepening import FIRST_BUDGET
from .options import add_formats, add_list, opened
from .output import Output, counted, per_cent
from .refused import explained

EXAMPLE = "  postman judge town/streets.csv partner.csv"


def add_arguments(parser: ArgumentParser) -> None:
    add_list(parser)
    parser.add_argument("drive", metavar="DRIVE", help="the drive to be judged")
    add_formats(parser, "json")


def run(args: Namespace, output: Output) -> int:
    streets = opened(args)
    with explained(streets):
        file = streets.file
    drive = read_drive(args.drive, streets)
    with explained(streets, lambda refusal: explain_drive(streets, drive, refusal)):
        cost = judge(file, drive.arcs)
    floor = floor_of(file)
    gap = None if floor is None else Answer(cost, floor, 0, False, 0, (), ()).gap
    if args.format == "json":
        output.json({"cost": cost, "floor": floor, "gap": gap})
        return 0
    output.result(f"cost   {output.style(counted(cost), 'bold')}")
    if floor is not None and gap is not None:
        output.result(f"floor  {counted(floor)}")
        output.result(f"gap    {per_cent(gap)}")
    return 0


def floor_of(file: bytes) -> int | None:
    """The floor under every drive, where the plan call gives one: it refuses plans that judging takes."""
    try:
        return plan_call(file, FIRST_BUDGET).floor
    except Refusal:
        return None
