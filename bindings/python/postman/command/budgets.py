"""Shows what a larger budget buys: cost and floor at 1, 10, ... 1000000 trees, as
a table and as a plot. Costs fall with the budget; the floor rises only when all
trees were tried."""

from __future__ import annotations

from argparse import ArgumentParser, Namespace

from ..limits import HIGHEST_BUDGET
from ..streets.table import written
from .options import add_departure, add_formats, add_list
from .output import Output, counted, per_cent
from .pictures import add_picture, write_picture
from .plot import plot
from .question import asked

EXAMPLE = "  postman budgets town/streets.csv"

BUDGETS = [10**power for power in range(len(str(HIGHEST_BUDGET)))]
COLUMNS = ("budget", "cost", "floor", "gap", "trees", "whole")


def add_arguments(parser: ArgumentParser) -> None:
    add_list(parser)
    add_departure(parser)
    add_formats(parser, "json", "csv")
    add_picture(parser, "the plot")


def run(args: Namespace, output: Output) -> int:
    question = asked(args)
    answers = [question.ask(budget) for budget in BUDGETS]
    write_picture(output, args.picture, lambda picture: picture.budgets(list(zip(BUDGETS, answers))))
    rows = [
        (budget, answer.cost, answer.floor, answer.gap, answer.trees, answer.whole)
        for budget, answer in zip(BUDGETS, answers)
    ]
    if args.format == "json":
        output.json([dict(zip(COLUMNS, row)) for row in rows])
    elif args.format == "csv":
        output.raw(written(COLUMNS, ((*row[:3], f"{row[3]:.6f}", row[4], "yes" if row[5] else "no") for row in rows)))
    else:
        texts = [
            (counted(budget), counted(cost), counted(floor), per_cent(gap), counted(trees), "yes" if whole else "no")
            for budget, cost, floor, gap, trees, whole in rows
        ]
        output.table(COLUMNS, texts, right=("budget", "cost", "floor", "gap", "trees"))
        output.result("")
        series = [("o", "cost", [row[1] for row in rows]), ("-", "floor", [row[2] for row in rows])]
        output.raw(plot([counted(budget) for budget in BUDGETS], series))
    return 0
