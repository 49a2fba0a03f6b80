"""Writes a report on a drive: one HTML file to be filed with the job. It has the
plan's figures, pictures of the town and of the drive, the steps, what is driven
twice and why, cost, floor and gap, what a larger budget buys, and the market
days if they are given. It needs no other file, and prints on A4.

Without a budget it goes as deep as half a second allows, as drive does."""

from __future__ import annotations

from argparse import ArgumentParser, Namespace

from ..calls import plan_call_at
from ..limits import DEFAULT_BUDGET, HIGHEST_BUDGET
from .budgets import BUDGETS
from .options import add_departure, add_list, add_rounds, opened
from .output import Output
from .pictures import named, write_made
from .question import Question

EXAMPLE = """\
  postman report town/streets.csv -o report.html
  postman report town/streets.csv --windows town/windows.csv -o report.html"""


def add_arguments(parser: ArgumentParser) -> None:
    add_list(parser)
    add_rounds(parser)
    add_departure(parser)
    called = "what the report is called (default: the list's file)"
    parser.add_argument("--title", metavar="TEXT", default="", help=called)
    file = "the file (default: standard output)"
    parser.add_argument("-o", "--output", metavar="HTML", type=named(".html"), help=file)


def run(args: Namespace, output: Output) -> int:
    from ..report import Job, report
    from ..report.market_days import spells
    from ..streets.windows_file import read_windows

    streets = opened(args)
    # Market days without a departure are shown for the whole week.
    question = Question(streets, args.windows, args.at) if args.at else Question(streets)
    windows = read_windows(args.windows, streets) if args.windows else ()
    answer, deep = question.answered(args.budget, args.rounds)
    shut = [typed.window for typed in windows]
    budget = args.budget or (HIGHEST_BUDGET if deep else max(answer.trees, DEFAULT_BUDGET))
    job = Job(
        streets=streets,
        answer=answer,
        trees=question.trees(),
        deep=deep,
        budgets=[(budget, question.ask(budget)) for budget in BUDGETS],
        windows=windows,
        departure=args.at,
        spells=spells(windows, lambda at: plan_call_at(question.file, budget, shut, at)) if windows else (),
        title=args.title,
    )
    text = report(job)
    if args.output is None:
        output.raw(text)
    else:
        write_made(output, args.output, text, "the report")
    return 0
