"""What the pictures of one list share: the ground, the corners, the parts, the room that is left for names."""

from __future__ import annotations

import math
from collections import defaultdict
from collections.abc import Collection, Sequence
from pathlib import PurePath

from ..plan import Standing
from ..streets.street_list import StreetList
from . import lanes
from .corners import Corners
from .drawing import Box, Group, Label, Line, Point, Shape
from .ground import Ground, ground
from .passes import corners_of_parts
from .room import Room, body, spine, text_width


ROUND_A_CORNER = 16.0
"""How far beyond a corner's rim a street runs past it."""


def name_of(streets: StreetList) -> str:
    """What a list is called in titles: its file's name."""
    return "street list" if streets.path == "-" else PurePath(streets.path).name


class Base:
    """What the pictures of one list share: the ground, the corners, the parts, the room that is left."""

    def __init__(self, streets: StreetList) -> None:
        self.streets = streets
        self.plan = streets.plan
        self.ground: Ground = ground(streets)
        self.points = self.ground.points
        self.parts = corners_of_parts(streets)
        self.room = Room()
        self.corners = Corners(streets, self.ground, {corner for part in self.parts for corner in part})
        self.lane_reach: dict[tuple[int, int], float] = defaultdict(float)

    def free_side(self, corner: int) -> float:
        """The side of a corner where a loop finds room."""
        near = [self.points[arc.head] for arc in self.plan.arcs if arc.tail == corner != arc.head]
        near += [self.points[arc.tail] for arc in self.plan.arcs if arc.head == corner != arc.tail]
        return lanes.free_side(self.points[corner], near)

    def tints(self) -> list[Group]:
        """A tint under the must streets and the corners of each part."""
        groups = []
        for number, part in enumerate(self.parts):
            shapes: list[Shape] = []
            for arc in self.plan.arcs:
                if arc.standing == Standing.MUST and arc.tail in part:
                    ends = self.points[arc.tail], self.points[arc.head]
                    aside = self._aside(arc.tail, arc.head)
                    shapes.append(Line(lanes.lane(*ends, aside, self.corners.rim) if aside else ends, "tint"))
            groups.append(Group(f"part part-{number % 8}", tuple(dict.fromkeys(shapes))))
        return groups

    def part_names(self) -> list[Group]:
        """Each part's number, where it finds room near its corners."""
        groups: list[Group] = []
        if len(self.parts) < 2:
            return groups
        for number, part in enumerate(self.parts):
            words = f"part {number}"
            width = text_width(words, 12.0)
            places = [
                (self.points[corner][0] + reach * math.cos(turn), self.points[corner][1] + reach * math.sin(turn))
                for corner in sorted(part)
                for reach in (24.0, 34.0)
                for turn in (k * math.pi / 4 for k in range(8))
            ]
            best = min(places, key=lambda at: self._harm_of_part(at, width, part))
            self.room.take(body(best, width, "middle"), 6.0)
            groups.append(Group(f"part part-{number % 8}", (Label(best, words, "halo"),)))
        return groups

    def _harm_of_part(self, at: Point, width: float, part: frozenset[int]) -> float:
        """What a part's name covers there; more where another part is about as near."""
        own = min(math.dist(self.points[corner], at) for corner in part)
        others = [math.dist(self.points[corner], at) for other in self.parts if other != part for corner in other]
        return self.room.crowd(spine(at, width, "middle"), 8) + (12 if min(others) < 1.6 * own else 0)

    def street_names(self) -> list[Group]:
        """The streets' names along them, where they find room; not again within a few blocks."""
        spans: dict[tuple[str, int, int], float] = {}
        for street, arc in zip(self.streets.streets, self.plan.arcs):
            ends = (min(arc.tail, arc.head), max(arc.tail, arc.head))
            if street.street and arc.tail != arc.head and self.streets.unit != "arc":
                spans[street.street, *ends] = math.dist(self.points[ends[0]], self.points[ends[1]])
        placed: dict[str, list[Point]] = defaultdict(list)
        groups = []
        for (name, one, other), length in sorted(spans.items(), key=lambda entry: (-entry[1], entry[0])):
            width = text_width(name, 8.5)
            if width > length - 12:
                continue
            label = self._beside(name, one, other, width)
            if label is None or any(math.dist(label.at, at) < 220 for at in placed[name]):
                continue
            placed[name].append(label.at)
            self.room.take(body(label.at, width, "middle", math.radians(label.angle)), 4.0)
            groups.append(Group("name", (label,)))
        return groups

    def _beside(self, name: str, one: int, other: int, width: float) -> Label | None:
        """A name beside a street, on the side and at the place where it covers least; None where it covers too much."""
        (x, y), (end_x, end_y) = sorted((self.points[one], self.points[other]))
        angle = math.atan2(end_y - y, end_x - x)
        away = self.lane_reach[one, other] + 9.0
        best: tuple[float, Point] | None = None
        for side in (-1.0, 1.0):
            for share in (0.5, 0.4, 0.6, 0.3, 0.7):
                at = (
                    x + (end_x - x) * share - math.sin(angle) * side * away,
                    y + (end_y - y) * share + math.cos(angle) * side * away,
                )
                crowd = self.room.crowd(spine(at, width, "middle", angle), 4.5)
                if best is None or crowd < best[0]:
                    best = (crowd, at)
        if best is None or best[0] > 0.5:
            return None
        return Label(best[1], name, "halo", angle=math.degrees(angle))

    def figures(self, shut: Collection[int]) -> str:
        """The list in one line of figures."""
        count = {standing: 0 for standing in Standing}
        for street in self.streets.streets:
            count[street.standing] += 1
        words = [
            _counted(len(self.streets.corners), "corner"),
            f"{_counted(len(self.streets.streets), 'street')}: {count[Standing.MUST]} must be driven, "
            f"{count[Standing.MAY]} may be, {count[Standing.CLOSED]} closed",
        ]
        if shut:
            words.append(f"{len(shut)} shut at departure")
        words.append(_counted(len(self.parts), "part"))
        return "; ".join(words) + "."

    def part_entries(self) -> list[tuple[str, Sequence[Shape], str]]:
        """The legend's entry for the parts' tints."""
        if not self.parts:
            return []
        return [("part-0", (Box((4.0, -6.0), 40.0, 12.0, 6.0, "swatch"),), "a part: must streets that hang together")]

    def ways_beside(
        self, keys: Sequence[tuple[int, int]], gap: float, apart: float = 0.0
    ) -> dict[tuple[int, int], tuple[Point, ...]]:
        """A line for each key, an arc and a number, in this order beside each other where they join the same corners.

        The gap between them is wider where the street is short: numbers that stand along it one after the other, each
        on a lane of its own, are then this far `apart`.
        """
        between: dict[tuple[int, int], list[tuple[int, int]]] = defaultdict(list)
        for key in keys:
            arc = self.plan.arcs[key[0]]
            between[min(arc.tail, arc.head), max(arc.tail, arc.head)].append(key)
        drawn = {}
        for (one, other), together in between.items():
            if one == other:
                away = self.free_side(one)
                for place, key in enumerate(together):
                    drawn[key] = lanes.loop(self.points[one], away, 13.0 + gap * place, self.corners.rim)
                continue
            step = 0.9 * math.dist(self.points[one], self.points[other]) / (len(together) + 1)
            wider = math.sqrt(max(0.0, apart * apart - step * step))
            own_gap = min(max(gap, wider), 84.0 / len(together))
            offsets = lanes.offsets([self.plan.arcs[key[0]].tail == one for key in together], own_gap)
            aside = self._aside(one, other)
            if aside:
                offsets = [offset - min(offsets) + aside for offset in offsets]
            self.lane_reach[one, other] = max(abs(offset) for offset in offsets)
            for key, offset in zip(together, offsets):
                arc = self.plan.arcs[key[0]]
                drawn[key] = lanes.lane(self.points[arc.tail], self.points[arc.head], offset, self.corners.rim)
        return drawn

    def _aside(self, one: int, other: int) -> float:
        """How far a street keeps to the right of the straight line between its corners: where that runs over a third
        corner it would seem to end there."""
        start, end = self.points[one], self.points[other]
        between = (point for corner, point in enumerate(self.points) if corner not in (one, other))
        over = any(lanes.lies_between(point, start, end, self.corners.rim) for point in between)
        return self.corners.rim + ROUND_A_CORNER if over else 0.0


def _counted(count: int, noun: str) -> str:
    return f"{count} {noun}" if count == 1 else f"{count} {noun}s"
