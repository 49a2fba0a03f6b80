"""The picture of a town: its streets, which of them must be driven, which may be, which are closed, and the parts."""

from __future__ import annotations

from collections.abc import Collection, Sequence

from ..plan import Standing
from ..streets.street_list import StreetList
from . import furniture
from .arcs import WORDS, arc_group, direction
from .base import Base, name_of
from .drawing import Drawing, Line, Point, Shape

LANE_GAP = 7.5


def town(streets: StreetList, shut: Collection[int] = (), title: str | None = None) -> Drawing:
    """A list's town. `shut` are the arcs that are shut at the departure, and drawn as closed ones."""
    base = Base(streets)
    drawn = base.ways_beside([(arc, 0) for arc in range(len(streets.streets))], LANE_GAP)
    groups = base.tints()
    for (arc, _), way in sorted(drawn.items(), key=lambda entry: (_rank(streets, entry[0][0], shut), entry[0])):
        groups.append(arc_group(base, arc, way, shut))
        # A name may cross a thin line rather than stand far from its corner.
        base.room.take_line(way, 1.0 if streets.streets[arc].must else 0.6)
    groups += base.corners.groups(base.room)
    groups += base.street_names()
    groups += base.part_names()
    name = title or name_of(streets)
    figures = base.figures(shut)
    groups += [furniture.header(name, figures), furniture.rule(base.ground)]
    groups += furniture.legend(base.ground, _entries(base, shut))
    groups.append(furniture.scale_bar(base.ground))
    groups += furniture.guesses(base.ground)
    return Drawing(base.ground.width, base.ground.height, name, f"The streets of {name}: {figures}", tuple(groups))


def _rank(streets: StreetList, arc: int, shut: Collection[int]) -> int:
    """Closed ones behind, must ones in front."""
    standing = Standing.CLOSED if arc in shut else streets.streets[arc].standing
    return (Standing.CLOSED, Standing.MAY, Standing.MUST).index(standing)


def _entries(base: Base, shut: Collection[int]) -> list[tuple[str, Sequence[Shape], str]]:
    """The legend's entries: those that occur."""
    standings = {Standing.CLOSED if arc in shut else s.standing for arc, s in enumerate(base.streets.streets)}
    way: tuple[Point, ...] = ((0.0, 0.0), (44.0, 0.0))
    entries: list[tuple[str, Sequence[Shape], str]] = []
    for standing in (Standing.MUST, Standing.MAY, Standing.CLOSED):
        if standing in standings:
            words = WORDS[standing] if standing != Standing.CLOSED or not shut else "closed, or shut at departure"
            entries.append((standing.name.lower(), (Line(way, "line"), *direction(way, standing)), words))
    return entries + base.part_entries()
