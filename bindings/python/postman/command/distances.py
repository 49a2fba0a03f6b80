"""Looks up the least cost of a way between corners. PAIRS is a CSV with the
columns from and to; single pairs can be given by --pair."""

from __future__ import annotations

from argparse import ArgumentParser, Namespace

from ..calls import distances
from ..streets.errors import ListError, nearest
from ..streets.explain import pages
from ..streets.pairs_file import read_pairs
from ..streets.street_list import StreetList
from ..streets.table import written
from .options import WrongUsage, add_formats, add_list, opened
from .output import Output, counted
from .refused import explained

EXAMPLE = """\
  postman distances town/streets.csv pairs.csv
  postman distances town/streets.csv --pair "Market Square" "South Gate\""""

COLUMNS = ("from", "to", "distance")


def add_arguments(parser: ArgumentParser) -> None:
    add_list(parser)
    parser.add_argument("pairs", metavar="PAIRS", nargs="?", help="CSV with the columns from and to")
    parser.add_argument("--pair", nargs=2, metavar=("FROM", "TO"), action="append", default=[], help="two corners")
    add_formats(parser, "json", "csv")


def run(args: Namespace, output: Output) -> int:
    if args.pairs is None and not args.pair:
        raise WrongUsage("name a CSV of pairs, or a pair by --pair")
    streets = opened(args)
    pairs = read_pairs(args.pairs, streets) if args.pairs is not None else []
    pairs += [(corner_of(streets, first), corner_of(streets, second)) for first, second in args.pair]
    rows = [(*pair, value) for pair, value in zip(pairs, looked_up(streets, pairs))]
    if args.format == "json":
        output.json([dict(zip(COLUMNS, row)) for row in rows])
    elif args.format == "csv":
        output.raw(written(COLUMNS, rows))
    else:
        texts = [(*ends, "no way" if value is None else counted(value)) for *ends, value in rows]
        output.table(COLUMNS, texts, right=("distance",))
    return 0


def corner_of(streets: StreetList, name: str) -> str:
    """A name that must be a corner's."""
    if name not in streets.numbers:
        raise ListError(f"{name} is no corner{nearest(name, streets.numbers)}", streets.path)
    return name


def looked_up(streets: StreetList, pairs: list[tuple[str, str]]) -> list[int | None]:
    """The library's distances, page by page."""
    values: list[int | None] = []
    with explained(streets):
        numbers = [(streets.numbers[first], streets.numbers[second]) for first, second in pairs]
        for page in pages(iter(numbers)):
            values += distances(streets.file, page).values
    return values
