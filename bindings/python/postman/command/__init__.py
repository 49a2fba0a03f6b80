"""The command `postman`: an editor's day over street lists, without programming.

Each subcommand is a module of this package with an EXAMPLE for its help, `add_arguments(parser)` and `run(args,
output)`, which answers the exit status. Only the module of the subcommand that was called is imported.
"""

from __future__ import annotations

import os
import sys
from importlib import import_module
from typing import TYPE_CHECKING

if TYPE_CHECKING:
    from argparse import ArgumentParser

    from _typeshed import SupportsWrite

SUBCOMMANDS = {
    "make": "make a plan file of a street list, or street lists of a map",
    "show": "show what a list holds",
    "drive": "lay a drive, with directions by street names",
    "judge": "judge a drive that somebody else laid",
    "trees": "count the trees, before a budget is chosen",
    "budgets": "show what a larger budget buys",
    "distances": "look up distances between corners",
    "cars": "lay drives for two cars, or propose how to share the work",
    "edit": "try closings and costs at a prompt",
    "desk": "try closings and costs on a page in the browser",
    "report": "write a report on a drive, with pictures, as one HTML file",
    "districts": "lay drives for many districts in turn",
    "batch": "lay drives for thousands of plans on all cores",
    "completion": "print the completion for a shell",
}

ANSWERED, REFUSED, WRONG_USAGE, INTERRUPTED, CLOSED_PIPE = 0, 1, 2, 130, 141

USAGE = "usage: postman SUBCOMMAND ... [--help]"


def main(argv: list[str] | None = None) -> int:
    """Runs the command and answers its exit status."""
    if sys.stdout is None:
        return CLOSED_PIPE
    # A name that the terminal has no letters for is shown by their numbers, and is no failure.
    if hasattr(sys.stdout, "reconfigure"):
        sys.stdout.reconfigure(errors="backslashreplace")
    try:
        status = run(sys.argv[1:] if argv is None else argv)
        sys.stdout.flush()
        return status
    except BrokenPipeError:
        into_nothing()
        return CLOSED_PIPE
    except OSError as error:
        into_nothing()
        print(f"postman: writing failed: {error.strerror}", file=sys.stderr)
        return WRONG_USAGE
    except KeyboardInterrupt:
        return INTERRUPTED


def into_nothing() -> None:
    """Python writes once more at its end what it could not write before; that goes into nothing."""
    os.dup2(os.open(os.devnull, os.O_WRONLY), sys.stdout.fileno())


def run(argv: list[str]) -> int:
    if not argv:
        return complain(f"{USAGE}\npostman --help lists the subcommands")
    name, *rest = argv
    if name in ("-h", "--help", "help"):
        print(overview())
        return ANSWERED
    if name == "--version":
        from .. import __version__

        print(f"postman {__version__}")
        return ANSWERED
    if name not in SUBCOMMANDS:
        from ..streets.errors import nearest

        return complain(f"{USAGE}\npostman: {name} is no subcommand{nearest(name, SUBCOMMANDS)}")
    return called(name, rest)


def called(name: str, argv: list[str]) -> int:
    """Runs one subcommand."""
    from ..streets.errors import ListError
    from .options import WrongUsage
    from .output import Output
    from .refused import Refused

    module = import_module(f".{name}", __name__)
    parser = parser_of(name)
    try:
        args = parser.parse_args(argv)
    except SystemExit as end:
        return int(end.code or 0)
    output = Output(quiet=getattr(args, "quiet", False))
    try:
        return int(module.run(args, output))
    except WrongUsage as wrong:
        return complain(f"{parser.format_usage()}postman {name}: {wrong}")
    except Refused as refused:
        return complain(f"postman: {refused}", REFUSED)
    except ListError as error:
        refusal = getattr(error, "refusal", None)
        return complain(f"postman: {error}", WRONG_USAGE if refusal is None else REFUSED)


def complain(text: str, status: int = WRONG_USAGE) -> int:
    """Says on standard error what is wrong."""
    sys.stdout.flush()
    print(text, file=sys.stderr)
    return status


def parser_of(name: str) -> ArgumentParser:
    """The parser of a subcommand's arguments."""
    import re
    from argparse import ArgumentParser, RawDescriptionHelpFormatter

    class Parser(ArgumentParser):
        """A parser that feels a closed pipe, which argparse passes over."""

        def _print_message(self, message: str, file: SupportsWrite[str] | None = None) -> None:
            (file or sys.stderr).write(message or "")

    module = import_module(f".{name}", __name__)
    parser = Parser(
        prog=f"postman {name}",
        description=(module.__doc__ or "").strip(),
        epilog=f"example:\n{module.EXAMPLE}",
        formatter_class=RawDescriptionHelpFormatter,
        allow_abbrev=False,
    )
    # A place in the south begins with a minus, like an option.
    parser._negative_number_matcher = re.compile(r"-\d*\.?\d+(,-?\d*\.?\d+)?$")
    module.add_arguments(parser)
    return parser


def overview() -> str:
    """The help of the command as a whole."""
    width = max(map(len, SUBCOMMANDS))
    lines = [
        USAGE,
        "",
        "Lays survey drives: closed drives that pass every street under revision, with a",
        "floor that no drive can undercut. The floor is proved by machine.",
        "",
        "subcommands:",
        *(f"  {name:{width}}  {summary}" for name, summary in SUBCOMMANDS.items()),
        "",
        "A LIST is a street list (CSV with the columns from, to, standing, cost, and if",
        "wanted checking and street), a plan file, a map (GeoJSON), or - for standard input.",
        "postman SUBCOMMAND --help tells more, with an example.",
        "",
        "exit status: 0 an answer, 1 a refusal, 2 wrong usage, 141 a closed pipe",
    ]
    return "\n".join(lines)
