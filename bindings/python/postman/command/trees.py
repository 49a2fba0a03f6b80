"""Counts the trees of a plan, exactly and without listing them: with a budget of
as many, or more, a drive is whole, and no drive is cheaper. Numbers above
4294967295 are not counted out; no budget is above 1000000."""

from __future__ import annotations

from argparse import ArgumentParser, Namespace

from ..limits import HIGHEST_COUNT
from .options import add_departure, add_formats, add_list
from .output import Output
from .question import asked

EXAMPLE = "  postman trees town/streets.csv"


def add_arguments(parser: ArgumentParser) -> None:
    add_list(parser)
    add_departure(parser)
    add_formats(parser, "json")


def run(args: Namespace, output: Output) -> int:
    trees = asked(args).trees()
    if args.format == "json":
        output.json({"tree_count": trees, "above": HIGHEST_COUNT if trees is None else None})
    else:
        output.result(f"above {HIGHEST_COUNT}" if trees is None else str(trees))
    return 0
