"""Arguments that several subcommands take."""

from __future__ import annotations

from argparse import ArgumentParser, ArgumentTypeError, Namespace

from ..streets import StreetList, open_list
from ..streets.errors import clipped, shown
from ..streets.numerals import whole_of
from ..windows import Departure
from .output import Output


class WrongUsage(Exception):
    """Arguments that do not go together."""


FORMATS = {
    "json": "as JSON",
    "csv": "as CSV",
    "geojson": "as GeoJSON",
    "gpx": "as GPX, for navigation",
}


def add_list(parser: ArgumentParser) -> None:
    """LIST, --corners and --quiet."""
    parser.add_argument("list", metavar="LIST", help="street list, plan file or map; - for standard input")
    add_corners(parser)
    add_quiet(parser)


def add_corners(parser: ArgumentParser) -> None:
    parser.add_argument(
        "--corners",
        metavar="CSV",
        help="corners and coordinates (default: corners.csv beside streets.csv, A-corners.csv beside A.csv or "
        "A-streets.csv)",
    )


def add_quiet(parser: ArgumentParser) -> None:
    parser.add_argument("-q", "--quiet", action="store_true", help="no notes and no progress on standard error")


def add_budget(parser: ArgumentParser, default: str) -> None:
    parser.add_argument(
        "--budget", metavar="B", type=whole_number, help=f"the most trees to try, 1 to 1000000 (default: {default})"
    )


def add_rounds(parser: ArgumentParser) -> None:
    """Budget and rounds, for a drive that goes as deep as a time allows."""
    add_budget(parser, "as many as half a second allows; with --rounds 1000000")
    parser.add_argument(
        "--rounds", metavar="R", type=whole_number, help="look elsewhere too, in so many rounds, 1 to 1000"
    )


def add_departure(parser: ArgumentParser) -> None:
    parser.add_argument("--windows", metavar="CSV", help="when streets are shut: street, day, start, end")
    parser.add_argument("--at", metavar="WHEN", type=departure, help='when the drive begins, such as "tue 09:30"')


def add_formats(parser: ArgumentParser, *formats: str) -> None:
    """One of several formats instead of text."""
    group = parser.add_mutually_exclusive_group()
    for name in formats:
        group.add_argument(f"--{name}", dest="format", action="store_const", const=name, help=FORMATS[name])


def whole_number(text: str) -> int:
    number = whole_of(text.replace(",", "").replace("_", ""))
    if number is None:
        raise ArgumentTypeError(f"{clipped(text)} is not a whole number")
    return number


def departure(text: str) -> Departure:
    from ..streets.windows_file import departure_of

    try:
        return departure_of(text)
    except ValueError as error:
        raise ArgumentTypeError(str(error)) from None


def opened(args: Namespace) -> StreetList:
    """The list that the arguments name. What its reader noticed is noted."""
    streets = open_list(args.list, args.corners)
    for note in streets.notes:
        Output(args.quiet).note(f"{shown(args.list)}: {note}")
    return streets
