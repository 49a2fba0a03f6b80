"""The picture of two cars' marks: which streets each of them checks."""

from __future__ import annotations

from collections.abc import Collection, Sequence
from dataclasses import replace

from ..plan import Standing
from ..streets.street_list import StreetList
from . import furniture, lanes
from .arcs import arc_group, direction
from .base import Base, name_of
from .drawing import Area, Drawing, Group, Line, Point, Shape
from .town import LANE_GAP

NAMES = ("first car", "second car")
CLASSES = ("first-car", "second-car")


def car_list(streets: StreetList, marks: Collection[int]) -> StreetList:
    """A list in which the marked streets, and no others, must be driven."""
    own = tuple(
        replace(street, standing=Standing.MUST)
        if arc in marks
        else replace(street, standing=Standing.MAY, checking=None)
        if street.must
        else street
        for arc, street in enumerate(streets.streets)
    )
    return replace(streets, streets=own)


def cars(streets: StreetList, marks: Sequence[Collection[int]], title: str | None = None) -> Drawing:
    """A list's streets with the marks of both cars. What must be driven and has no mark is drawn as such."""
    base = Base(streets)
    ways = base.ways_beside([(arc, 0) for arc in range(len(streets.streets))], LANE_GAP)
    groups = []
    for (arc, _), way in sorted(ways.items(), key=lambda entry: (_marked(entry[0][0], marks), entry[0])):
        groups.append(_group(base, arc, way, marks))
        base.room.take_line(way, 1.0 if _marked(arc, marks) else 0.6)
    groups += base.corners.groups(base.room)
    groups += base.street_names()
    name = f"{title or name_of(streets)}: two cars"
    words = " ".join(f"The {car} has {len(own)} marks." for car, own in zip(NAMES, marks))
    groups += [furniture.header(name, words), furniture.rule(base.ground)]
    groups += furniture.legend(base.ground, _entries(base, marks))
    groups.append(furniture.scale_bar(base.ground))
    groups += furniture.guesses(base.ground)
    return Drawing(base.ground.width, base.ground.height, name, words, tuple(groups))


def _marked(arc: int, marks: Sequence[Collection[int]]) -> bool:
    return any(arc in own for own in marks)


def _group(base: Base, arc: int, way: tuple[Point, ...], marks: Sequence[Collection[int]]) -> Group:
    plain = arc_group(base, arc, way, ())
    if not _marked(arc, marks):
        return plain
    car = 0 if arc in marks[0] else 1
    return Group(f"arc {CLASSES[car]}", (Line(way, "hit"), *_sample(way)), f"{plain.title}; {NAMES[car]}", plain.data)


def _sample(way: tuple[Point, ...]) -> tuple[Shape, ...]:
    return Line(way, "line"), Area(lanes.arrow(*lanes.along(way, lanes.length_of(way) * 0.66), 11.0, 9.5), "head")


def _entries(base: Base, marks: Sequence[Collection[int]]) -> list[tuple[str, Sequence[Shape], str]]:
    way: tuple[Point, ...] = ((0.0, 0.0), (44.0, 0.0))
    entries: list[tuple[str, Sequence[Shape], str]] = [(kind, _sample(way), name) for kind, name in zip(CLASSES, NAMES)]
    words = {Standing.MUST: "must, and no car's", Standing.MAY: "may be driven", Standing.CLOSED: "closed"}
    left = {street.standing for arc, street in enumerate(base.streets.streets) if not _marked(arc, marks)}
    for standing in (Standing.MUST, Standing.MAY, Standing.CLOSED):
        if standing in left:
            entries.append((standing.name.lower(), (Line(way, "line"), *direction(way, standing)), words[standing]))
    return entries
