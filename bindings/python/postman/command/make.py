"""Makes a plan file of a street list; or street lists, to be edited, of a map or
of a plan file. What is made goes by the end of the name given by -o: .csv makes
a street list and the file of its corners, anything else a plan file. The plan
file is read back by the proved reader and compared row by row with the list."""

from __future__ import annotations

from argparse import ArgumentParser, Namespace
from pathlib import Path

from ..refusal import Refusal
from ..streets import StreetList, kind_of, open_list
from ..streets.csv_file import corners_beside, corners_text, streets_text
from ..streets.explain import explain
from ..streets.table import encoded, read_bytes
from .files import write_files
from .options import WrongUsage, add_list
from .output import Output, plural
from .refused import explained

EXAMPLE = """\
  postman make town/streets.csv -o town.plan
  postman make map.geojson --must survey -o streets.csv"""

MAP_OPTIONS = ("name", "cost", "must", "checking", "both_ways")

OUTPUT = "what is made (default: A.plan of A.csv, A-streets.csv of a map or plan file); - for a plan on standard output"


def add_arguments(parser: ArgumentParser) -> None:
    add_list(parser)
    parser.add_argument("-o", "--output", metavar="FILE", help=OUTPUT)
    parser.add_argument("--force", action="store_true", help="write over a street list that is there already")
    of_maps = parser.add_argument_group("of a map's properties")
    of_maps.add_argument("--name", metavar="PROPERTY", help="the street's name (default: name)")
    of_maps.add_argument("--cost", metavar="PROPERTY", help="the cost (default: the length in metres)")
    of_maps.add_argument("--must", metavar="PROPERTY[=VALUE]", help="which streets must be driven")
    of_maps.add_argument("--checking", metavar="PROPERTY", help="the checking cost of must streets")
    of_maps.add_argument("--both-ways", action="store_true", help="streets of two directions are must in both")


def run(args: Namespace, output: Output) -> int:
    kind, streets = read_input(args)
    for note in streets.notes:
        output.note(f"{args.list}: {note}")
    target = args.output or default_output(args.list, kind)
    if Path(target).suffix.lower() == ".csv":
        write_lists(streets, target, args.force, output)
        return 0
    with explained(streets):
        file = streets.file
    if target == "-":
        output.data(file)
    else:
        write_files([(target, file)], force=True)
        output.note(f"{target}: {held(streets)}, {len(file)} bytes, read back and compared row by row")
    return 0


def read_input(args: Namespace) -> tuple[str, StreetList]:
    """What the list is, and the list."""
    data = read_bytes(args.list)
    kind = kind_of(args.list, data)
    given = {option: getattr(args, option) for option in MAP_OPTIONS if getattr(args, option)}
    if kind != "geojson":
        if given:
            names = ", ".join(f"--{option.replace('_', '-')}" for option in given)
            raise WrongUsage(f"{names} is for maps, and {args.list} is none")
        return kind, open_list(args.list, args.corners, data)
    from ..streets.geojson import from_geojson

    if "name" in given:
        given["street"] = given.pop("name")
    return kind, from_geojson(args.list, data=data, **given)


def default_output(path: str, kind: str) -> str:
    if path == "-":
        raise WrongUsage("say by -o what is made of standard input")
    return str(Path(path).with_suffix(".plan" if kind == "csv" else "")) + ("" if kind == "csv" else "-streets.csv")


def write_lists(streets: StreetList, target: str, force: bool, output: Output) -> None:
    """Writes a street list and the file of its corners."""
    corners = corners_beside(target)
    write_files([(target, encoded(streets_text(streets))), (corners, encoded(corners_text(streets)))], force)
    output.note(f"{target} and {corners}: {held(streets)}")
    try:
        streets.file
    except Refusal as refusal:
        # It is written to be edited, so this is no failure.
        output.note(f"{target}: no plan yet: refusal {refusal.number}, {refusal.word}: {explain(streets, refusal)}")


def held(streets: StreetList) -> str:
    return f"{plural(len(streets.corners), 'corner')}, {plural(len(streets.streets), 'street')}"
