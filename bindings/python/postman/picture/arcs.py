"""An arc as it is drawn: its line, its direction, and a cross if it is closed."""

from __future__ import annotations

import math
from collections.abc import Collection

from ..plan import Standing
from . import lanes
from .base import Base
from .drawing import Area, Group, Line, Point, Shape

WORDS = {Standing.MUST: "must be driven", Standing.MAY: "may be driven", Standing.CLOSED: "closed"}


def arc_group(base: Base, arc: int, way: tuple[Point, ...], shut: Collection[int], idle: bool = False) -> Group:
    """An arc with its direction; a closed one with a cross."""
    street = base.streets.streets[arc]
    standing = Standing.CLOSED if arc in shut else street.standing
    classes = f"arc {standing.name.lower()}{' idle' if idle else ''}"
    words = "shut at departure" if arc in shut and street.standing != Standing.CLOSED else WORDS[standing]
    title = f"{street.name}: {street.from_corner} to {street.to_corner}, {words}, cost {street.cost}"
    checking = base.plan.arcs[arc].checking
    if standing == Standing.MUST and checking != street.cost:
        title += f", checked at {checking}"
    return Group(classes, (Line(way, "hit"), Line(way, "line"), *direction(way, standing)), title, {"arc": arc})


def direction(way: tuple[Point, ...], standing: Standing) -> tuple[Shape, ...]:
    length = lanes.length_of(way)
    size = {Standing.MUST: (11.0, 9.5), Standing.MAY: (8.0, 6.5), Standing.CLOSED: (7.0, 6.0)}[standing]
    head = Area(lanes.arrow(*lanes.along(way, length * 0.66), *size), "head")
    if standing != Standing.CLOSED:
        return (head,)
    (x, y), angle = lanes.along(way, length * 0.42)
    return (head, *cross((x, y), angle, 4.2))


def cross(at: Point, angle: float, reach: float) -> tuple[Shape, ...]:
    """A cross over a line."""
    ends = []
    for turn in (angle + math.pi / 4, angle - math.pi / 4):
        across = (math.cos(turn) * reach, math.sin(turn) * reach)
        ends.append(Line(((at[0] - across[0], at[1] - across[1]), (at[0] + across[0], at[1] + across[1])), "cross"))
    return tuple(ends)
