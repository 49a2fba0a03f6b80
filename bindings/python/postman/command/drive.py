"""Lays a drive for a street list and prints directions: street by street, with a
star where a street under revision is checked; then the cost, the floor that no
drive can undercut, the gap between them, and how many trees were tried.

Without a budget it goes as deep as half a second allows. Rounds look elsewhere
too: each numbers the corners anew or goes on where the fewest trees are left."""

from __future__ import annotations

from argparse import ArgumentParser, ArgumentTypeError, Namespace

from ..streets.steps import steps_of
from .directions import as_csv, as_object, print_directions, print_figures
from .options import add_departure, add_formats, add_list, add_rounds
from .output import Output
from .pictures import add_picture, write_picture
from .question import asked

EXAMPLE = """\
  postman drive town/streets.csv
  postman drive town/streets.csv --rounds 100
  postman drive town/streets.csv --at "tue 09:30" --windows town/windows.csv
  postman drive town/streets.csv --picture drive.svg
  postman drive town/streets.csv --gpx --origin 54.21,-2.36 > drive.gpx"""


def add_arguments(parser: ArgumentParser) -> None:
    add_list(parser)
    add_rounds(parser)
    add_departure(parser)
    add_formats(parser, "json", "csv", "geojson", "gpx")
    add_picture(parser, "the drive")
    parser.add_argument(
        "--origin", metavar="LAT,LON", type=origin, help="where x 0 and y 0 lie on the earth, for --geojson and --gpx"
    )


def origin(text: str) -> tuple[float, float]:
    try:
        lat, lon = map(float, text.split(","))
    except ValueError:
        raise ArgumentTypeError(f"{text} is no place: write latitude and longitude as 54.21,-2.36") from None
    if not (abs(lat) < 90 and abs(lon) <= 180):
        raise ArgumentTypeError(f"{text} is no place on the earth")
    return lat, lon


def run(args: Namespace, output: Output) -> int:
    question = asked(args)
    answer, deep = question.answered(args.budget, args.rounds)
    streets = question.streets
    write_picture(output, args.picture, lambda picture: picture.drive(streets, answer, question.shut))
    if args.format in ("geojson", "gpx"):
        from ..streets.earth import placed

        streets = placed(streets, *args.origin) if args.origin else streets
        if args.format == "geojson" and not any(corner.lon is not None for corner in streets.corners):
            what = "x and y as they stand in the list" if streets.corners[0].x is not None else "not there"
            hint = "--origin LAT,LON says where x 0 and y 0 lie"
            output.note(f"the coordinates are {what}, and no map shows them: {hint}")
    if args.format == "geojson":
        from ..streets.geojson import drive_geojson

        output.json(drive_geojson(streets, answer.drive))
    elif args.format == "gpx":
        from ..streets.gpx import drive_gpx

        output.raw(drive_gpx(streets, answer.drive))
    elif args.format == "json":
        output.json(as_object(streets, answer, question.trees()))
    elif args.format == "csv":
        output.raw(as_csv(streets, steps_of(streets, answer.drive)))
    else:
        print_directions(output, streets, steps_of(streets, answer.drive))
        print_figures(output, answer, question.trees(), deep=deep)
    return 0
