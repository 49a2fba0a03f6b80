"""Serves a desk for a list: a page in the browser for trying closings and costs,
with four marks to come back to, market days, two cars, and saving under a new
name.

The page is served to this machine alone, and to those who have its address; it
needs no network. What is saved goes into the list's folder. Ctrl-C ends it."""

from __future__ import annotations

from argparse import ArgumentParser, Namespace

from ..limits import DEFAULT_BUDGET
from .options import WrongUsage, add_budget, add_departure, add_list, opened, whole_number
from .output import Output
from .refused import explained

EXAMPLE = """\
  postman desk town/streets.csv
  postman desk town/streets.csv --windows town/windows.csv --open"""

HIGHEST_PORT = 65535


def add_arguments(parser: ArgumentParser) -> None:
    add_list(parser)
    add_budget(parser, f"{DEFAULT_BUDGET:,}")
    add_departure(parser)
    free = "the port (default: one that is free)"
    parser.add_argument("--port", metavar="N", type=whole_number, default=0, help=free)
    parser.add_argument("--open", action="store_true", help="open the page in the browser")


def run(args: Namespace, output: Output) -> int:
    from ..desk import Desk, DeskServer
    from ..streets.windows_file import read_windows

    if args.list == "-":
        raise WrongUsage("a desk needs a file: what is saved goes beside it")
    if args.at and not args.windows:
        raise WrongUsage("--at goes with --windows: when streets are shut")
    if args.port > HIGHEST_PORT:
        raise WrongUsage(f"{args.port} is no port: the highest is {HIGHEST_PORT}")
    streets = opened(args)
    windows = read_windows(args.windows, streets) if args.windows else ()
    budget = DEFAULT_BUDGET if args.budget is None else args.budget
    with explained(streets):
        desk = Desk(streets, windows, args.at, budget)
    try:
        server = DeskServer(desk, args.port)
    except OSError as error:
        raise WrongUsage(f"port {args.port} cannot be had: {error.strerror}") from None
    with server:
        print(server.address, flush=True)
        output.note("the desk is open; Ctrl-C ends it")
        if args.open:
            import webbrowser

            webbrowser.open(server.address)
        try:
            server.serve_forever()
        except KeyboardInterrupt:
            output.note("the desk is closed")
    return 0
