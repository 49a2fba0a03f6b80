"""Shows what a list holds: its corners and streets, the parts of the streets under
revision, and how many trees there are, or why no drive can be laid."""

from __future__ import annotations

from argparse import ArgumentParser, Namespace
from typing import Any

from ..calls import tree_count
from ..plan import Standing
from ..refusal import Refusal
from ..streets import StreetList
from ..streets.csv_file import needs_corners, streets_text
from ..streets.explain import explain, named, parts_of
from .directions import count_said
from .options import add_formats, add_list, opened
from .output import Output, counted, plural
from .pictures import add_picture, write_picture
from .refused import explained

EXAMPLE = """\
  postman show town/streets.csv
  postman show town.plan --csv > streets.csv
  postman show town/streets.csv --picture town.svg"""


def add_arguments(parser: ArgumentParser) -> None:
    add_list(parser)
    parser.add_argument("--rows", action="store_true", help="the streets too, one a row")
    add_formats(parser, "json", "csv")
    add_picture(parser, "the town")


def run(args: Namespace, output: Output) -> int:
    streets = opened(args)
    with explained(streets):
        file = streets.file
    write_picture(output, args.picture, lambda picture: picture.town(streets))
    if args.format == "csv":
        output.raw(streets_text(streets))
        if needs_corners(streets):
            output.note("the corners' order and coordinates are not in it; make LIST -o FILE.csv writes both files")
        return 0
    try:
        trees, refusal = tree_count(file), None
    except Refusal as found:
        trees, refusal = None, found
    if args.format == "json":
        output.json(as_object(streets, trees, refusal))
    else:
        print_list(output, streets, trees, refusal)
        if args.rows:
            output.result("")
            print_rows(output, streets)
    return 0


def must_of(streets: StreetList) -> list[int]:
    return [arc for arc, street in enumerate(streets.streets) if street.must]


def counts_of(streets: StreetList) -> dict[str, int]:
    """How many streets there are of each standing."""
    standings = [street.standing for street in streets.streets]
    return {
        standing.name.lower(): standings.count(standing) for standing in (Standing.MUST, Standing.MAY, Standing.CLOSED)
    }


def print_list(output: Output, streets: StreetList, trees: int | None, refusal: Refusal | None) -> None:
    counts = ", ".join(f"{counted(number)} {word}" for word, number in counts_of(streets).items())
    output.result(f"list     {streets.path}, edition {streets.edition}")
    known = sum(corner.x is not None for corner in streets.corners)
    source = f" from {streets.corners_path}" if streets.corners_path else ""
    placed = f", {counted(known)} with coordinates" if known else ", no coordinates"
    output.result(f"corners  {counted(len(streets.corners))}{source}{placed}")
    output.result(f"streets  {counted(len(streets.streets))}: {counts}")
    parts = parts_of(streets, must_of(streets))
    output.result(f"parts    {len(parts)}")
    for number, arcs in enumerate(parts):
        output.result(f"  {number}  {named(streets, arcs)} ({plural(len(arcs), streets.unit)})")
    if refusal is None:
        output.result(f"trees    {count_said(trees)}")
    else:
        output.result(f"refusal  {refusal.number}, {refusal.word}: {explain(streets, refusal)}")


def print_rows(output: Output, streets: StreetList) -> None:
    header = (streets.unit, "street", "from", "to", "standing", "cost", "checking")
    styles = {Standing.MUST: "green", Standing.CLOSED: "dim", Standing.MAY: ""}
    rows = [
        (
            street.row,
            street.street,
            street.from_corner,
            street.to_corner,
            street.standing.name.lower(),
            counted(street.cost),
            "" if street.checking is None else counted(street.checking),
            styles[street.standing],
        )
        for street in streets.streets
    ]
    output.table(header, rows, right=(streets.unit, "cost", "checking"))


def as_object(streets: StreetList, trees: int | None, refusal: Refusal | None) -> dict[str, Any]:
    return {
        "list": streets.path,
        "edition": streets.edition,
        "corners": [{"corner": corner.name, "x": corner.x, "y": corner.y} for corner in streets.corners],
        "streets": [
            {
                "arc": arc,
                "row": street.row,
                "street": street.street,
                "from": street.from_corner,
                "to": street.to_corner,
                "standing": street.standing.name.lower(),
                "cost": street.cost,
                "checking": street.checking,
            }
            for arc, street in enumerate(streets.streets)
        ],
        "parts": parts_of(streets, must_of(streets)),
        "tree_count": trees,
        "refusal": None if refusal is None else {"number": refusal.number, "word": refusal.word},
    }
