"""The picture of a drive: its passes as numbered arrows in the order driven, repeats beside each other."""

from __future__ import annotations

import math
from collections import defaultdict
from collections.abc import Collection, Sequence

from ..answer import Answer
from ..streets.street_list import StreetList
from . import furniture, lanes
from .arcs import arc_group, cross
from .base import Base, name_of
from .drawing import Area, Box, Dot, Drawing, Group, Label, Line, Point, Shape
from .passes import Pass, Purpose, passes
from .percent import percent
from .room import Room, body, spine, text_width

LANE_GAP = 8.0
NUMBERS_APART = 16.0

# The most lanes of one arc. Passes beyond it share the last lane, and its number says how many they are.
MOST_LANES = 12

WORDS = {
    Purpose.CHECK: "checks a must street",
    Purpose.JOINING: "extra, joining: from one part to another",
    Purpose.BALANCING: "extra, balancing: back into the same part",
}

_PILL = 11.5


def drive(streets: StreetList, answer: Answer, shut: Collection[int] = (), title: str | None = None) -> Drawing:
    """An answer's drive on its list. `shut` are the arcs that are shut at the departure."""
    base = Base(streets)
    lane_of: dict[int, list[list[Pass]]] = defaultdict(list)
    for one in passes(streets, answer.drive):
        if len(lane_of[one.arc]) < MOST_LANES:
            lane_of[one.arc].append([one])
        else:
            lane_of[one.arc][-1].append(one)
    keys = [(arc, lane) for arc in sorted(lane_of) for lane in range(len(lane_of[arc]))]
    idle = [(arc, 0) for arc in range(len(streets.streets)) if arc not in lane_of]
    ways = base.ways_beside(keys + idle, LANE_GAP, NUMBERS_APART)
    groups = base.tints()
    for key in idle:
        groups.append(arc_group(base, key[0], ways[key], shut, idle=True))
        base.room.take_line(ways[key], 0.6)
    shares = _shares(base, keys)
    numbers = Room()
    drawn = [_pass_group(base, numbers, lane_of[arc][lane], ways[arc, lane], shares[arc, lane]) for arc, lane in keys]
    for key in keys:
        base.room.take_line(ways[key], 1.0)
    groups += sorted(drawn, key=lambda group: -int(str(group.data["step"])))
    start = _start(base, answer)
    groups += base.corners.groups(base.room)
    groups += start
    groups += base.street_names()
    groups += base.part_names()
    name = title or name_of(streets)
    figures = summary(answer)
    groups += [furniture.header(f"{name}: the drive", figures), furniture.rule(base.ground)]
    groups += furniture.legend(base.ground, _entries(base, lane_of, shut))
    groups.append(furniture.scale_bar(base.ground))
    groups += furniture.guesses(base.ground)
    return Drawing(base.ground.width, base.ground.height, f"{name}: the drive", figures, tuple(groups))


def summary(answer: Answer) -> str:
    """An answer's figures in one line."""
    if answer.cost == answer.floor:
        end = "no drive is cheaper"
    else:
        end = f"no drive costs less than the floor of {answer.floor:,}; the gap is {percent(answer)}"
    return f"{answer.places:,} steps, cost {answer.cost:,}; {end}."


def _shares(base: Base, keys: Sequence[tuple[int, int]]) -> dict[tuple[int, int], float]:
    """How far along its way each lane has its number: one after the other where lanes run beside each other."""
    between: dict[tuple[int, int], list[tuple[int, int]]] = defaultdict(list)
    for key in keys:
        arc = base.plan.arcs[key[0]]
        between[min(arc.tail, arc.head), max(arc.tail, arc.head)].append(key)
    shares = {}
    for (one, _), together in between.items():
        # From one side of the street to the other, so that neighbours are apart both along it and across.
        back = [key for key in together if base.plan.arcs[key[0]].tail != one]
        together = back[::-1] + [key for key in together if key not in back]
        for place, key in enumerate(together):
            share = (place + 1) / (len(together) + 1)
            share = 0.5 + (share - 0.5) * 0.9
            shares[key] = share if base.plan.arcs[key[0]].tail == one else 1 - share
    return shares


def _free_place(
    numbers: Room, way: tuple[Point, ...], wanted: float, stretch: tuple[float, float], width: float
) -> float:
    """Where along a lane its number stands: about where it is wanted, on the straight stretch, off other numbers."""
    begin, end = stretch
    inner = (begin + (end - begin) * 0.12, end - (end - begin) * 0.12)
    best: tuple[float, float] | None = None
    for aside in (0.0, -0.1, 0.1, -0.2, 0.2, -0.3, 0.3, -0.4, 0.4):
        # In the bends lanes are near each other.
        place = min(max(wanted + aside * (end - begin), inner[0]), inner[1])
        at, _ = lanes.along(way, place)
        harm = numbers.crowd(spine(at, width, "middle"), 6.0) + abs(aside)
        if best is None or harm < best[0]:
            best = (harm, place)
    assert best is not None
    return best[1]


def _pass_group(base: Base, numbers: Room, together: Sequence[Pass], way: tuple[Point, ...], share: float) -> Group:
    """A pass with its number and its direction; or the last lane of an arc that is passed very often."""
    one = together[0]
    street = base.streets.streets[one.arc]
    words = str(one.step) if len(together) == 1 else f"+{len(together)}"
    shapes: list[Shape] = [Line(way, "hit"), Line(way, "line")]
    width = max(_PILL, text_width(words, 8.0) + 3.5)
    length = lanes.length_of(way)
    arc = base.plan.arcs[one.arc]
    begin, end = (0.0, length) if arc.tail == arc.head else lanes.straight(way)
    place = _free_place(numbers, way, length * share, (begin, end), width)
    at, angle = lanes.along(way, place)
    numbers.take(body(at, width, "middle"), 1.0)
    reach = min(width / 2 / max(abs(math.cos(angle)), 1e-6), _PILL / 2 / max(abs(math.sin(angle)), 1e-6))
    size = (10.5, 9.5) if one.purpose is Purpose.CHECK else (9.5, 8.5)
    ahead = lanes.along(way, min(place + reach + size[0] * 0.35, length))
    shapes.append(Area(lanes.arrow(*ahead, *size), "head"))
    shapes.append(Box((at[0] - width / 2, at[1] - _PILL / 2), width, _PILL, _PILL / 2, "pill"))
    shapes.append(Label(at, words, "number"))
    base.room.take(body(at, width, "middle"), 7.0)
    if len(together) == 1:
        title = f"step {one.step}: {street.name}, {street.from_corner} to {street.to_corner}, {_does(one)}"
        steps: dict[str, object] = {"arc": one.arc, "step": one.step}
    else:
        title = f"{street.name}, {street.from_corner} to {street.to_corner}: {len(together)} more passes"
        steps = {"arc": one.arc, "step": one.step, "last": together[-1].step}
    return Group(f"pass {one.purpose.value}", tuple(shapes), title, steps)


def _does(one: Pass) -> str:
    match one.purpose:
        case Purpose.CHECK:
            return "checks it"
        case Purpose.JOINING:
            return f"on the way from part {one.leaves} to part {one.reaches}"
        case _:
            return f"on the way back into part {one.leaves}"


def _start(base: Base, answer: Answer) -> list[Group]:
    """A ring around the corner where the drive begins and ends."""
    at = base.points[base.plan.arcs[answer.drive[0]].tail]
    ring = Dot(at, base.corners.rim + 3.5, "ring")
    places = [
        (at[0] + reach * math.cos(turn), at[1] + reach * math.sin(turn))
        for reach in (24.0, 32.0)
        for turn in (k * math.pi / 6 for k in range(12))
    ]
    width = text_width("start", 10.0)
    best = min(places, key=lambda place: base.room.crowd(spine(place, width, "middle"), 6.0))
    base.room.take(body(best, width, "middle"), 5.0)
    return [Group("start", (ring, Label(best, "start", "halo")), "the drive begins and ends here")]


def _entries(
    base: Base, lane_of: dict[int, list[list[Pass]]], shut: Collection[int]
) -> list[tuple[str, Sequence[Shape], str]]:
    """The legend's entries: those that occur."""
    occur = {one.purpose for lanes_of_arc in lane_of.values() for together in lanes_of_arc for one in together}
    way: tuple[Point, ...] = ((0.0, 0.0), (44.0, 0.0))
    entries: list[tuple[str, Sequence[Shape], str]] = []
    for purpose in Purpose:
        if purpose in occur:
            pill = Box((11.0, -_PILL / 2), 14.0, _PILL, _PILL / 2, "pill")
            head = Area(lanes.arrow((31.0, 0.0), 0.0, 10.0, 9.0), "head")
            sample = (Line(way, "line"), head, pill, Label((18.0, 0.0), "7", "number"))
            entries.append((f"pass {purpose.value}", sample, WORDS[purpose]))
    idle = [arc for arc in range(len(base.streets.streets)) if arc not in lane_of]
    closed = [arc for arc in idle if arc in shut or base.streets.streets[arc].standing.name == "CLOSED"]
    if len(idle) > len(closed):
        entries.append(("may idle", (Line(way, "line"),), "not driven"))
    if closed:
        words = "closed, or shut at departure" if shut else "closed"
        entries.append(("closed idle", (Line(way, "line"), *cross((18.0, 0.0), 0.0, 4.2)), words))
    return entries + base.part_entries()
