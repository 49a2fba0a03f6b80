"""The lines between corners: what runs between the same two corners is drawn side by side, on the right of its way."""

from __future__ import annotations

import math
from collections.abc import Sequence

from .drawing import Point


def offsets(directions: Sequence[bool], gap: float) -> list[float]:
    """How far each lane between two corners lies to the right of its own way, for its direction, True one way."""
    there = sum(directions)
    back = len(directions) - there
    if there and back:
        counts = {True: 0, False: 0}
        found = []
        for direction in directions:
            found.append((counts[direction] + 0.5) * gap)
            counts[direction] += 1
        return found
    return [(place - (len(directions) - 1) / 2) * gap for place in range(len(directions))]


def lane(start: Point, end: Point, offset: float, rim: float) -> tuple[Point, ...]:
    """A line from one corner's rim to the other's, `offset` to the right between; outside the rim it bends in."""
    length = math.dist(start, end)
    if length < 1e-6:
        return (start, end)
    along = ((end[0] - start[0]) / length, (end[1] - start[1]) / length)
    right = (-along[1], along[0])
    reach = min(rim, length * 0.3)
    at_rim = max(-0.85 * reach, min(0.85 * reach, offset))
    begin = math.sqrt(reach * reach - at_rim * at_rim)
    ramp = min(8.0 + 1.1 * abs(offset - at_rim), (length - 2 * begin) / 3)
    places = [(begin, at_rim), (length - begin, at_rim)]
    if at_rim != offset:
        bend = [(k / 8, at_rim + (offset - at_rim) * (3 - 2 * k / 8) * (k / 8) ** 2) for k in range(9)]
        places = [(begin + ramp * share, aside) for share, aside in bend]
        places += [(length - begin - ramp * share, aside) for share, aside in reversed(bend)]
    return tuple(
        (
            start[0] + along[0] * place + right[0] * aside,
            start[1] + along[1] * place + right[1] * aside,
        )
        for place, aside in places
    )


def lies_between(point: Point, start: Point, end: Point, reach: float) -> bool:
    """Whether a line runs over a point, which lies this near to it and at neither end."""
    length = math.dist(start, end)
    if length < 1e-6:
        return False
    along = ((end[0] - start[0]) / length, (end[1] - start[1]) / length)
    away = (point[0] - start[0], point[1] - start[1])
    place = away[0] * along[0] + away[1] * along[1]
    return reach < place < length - reach and abs(away[1] * along[0] - away[0] * along[1]) < reach


def loop(corner: Point, away: float, radius: float, rim: float) -> tuple[Point, ...]:
    """A round way from a corner back to it, on the side that the angle `away` names."""
    centre = (corner[0] + math.cos(away) * (radius + rim * 0.6), corner[1] + math.sin(away) * (radius + rim * 0.6))
    spread = math.pi - math.asin(min(1.0, rim * 0.8 / radius))
    points = []
    for k in range(25):
        angle = away + spread * (2 * k / 24 - 1)
        points.append((centre[0] + math.cos(angle) * radius, centre[1] + math.sin(angle) * radius))
    return tuple(points)


def free_side(corner: Point, neighbours: Sequence[Point]) -> float:
    """The angle in the middle of the widest gap between the ways that leave a corner."""
    angles = sorted(math.atan2(y - corner[1], x - corner[0]) for x, y in neighbours if (x, y) != corner)
    if not angles:
        return -math.pi / 4
    best = (-1.0, 0.0)
    for place, angle in enumerate(angles):
        following = angles[(place + 1) % len(angles)] + (2 * math.pi if place + 1 == len(angles) else 0.0)
        width = following - angle
        if width > best[0] + 1e-9:
            best = (width, angle + width / 2)
    return best[1]


def length_of(points: Sequence[Point]) -> float:
    """The length of a polyline."""
    return sum(math.dist(one, other) for one, other in zip(points, points[1:]))


def straight(points: Sequence[Point]) -> tuple[float, float]:
    """Where along a lane its straight stretch begins and ends: between the bends, if it has any."""
    lengths = [math.dist(one, other) for one, other in zip(points, points[1:])]
    longest = max(range(len(lengths)), key=lengths.__getitem__)
    begin = sum(lengths[:longest])
    return begin, begin + lengths[longest]


def along(points: Sequence[Point], place: float) -> tuple[Point, float]:
    """The point at a length along a polyline, and the angle of its way there."""
    for one, other in zip(points, points[1:]):
        step = math.dist(one, other)
        if step > 1e-9 and (place <= step or other is points[-1]):
            share = min(1.0, max(0.0, place / step))
            at = (one[0] + (other[0] - one[0]) * share, one[1] + (other[1] - one[1]) * share)
            return at, math.atan2(other[1] - one[1], other[0] - one[0])
        place -= step
    return points[-1], 0.0


def arrow(at: Point, angle: float, length: float, width: float) -> tuple[Point, ...]:
    """An arrowhead whose middle is at a point."""
    cos, sin = math.cos(angle), math.sin(angle)
    shape = ((length * 0.5, 0.0), (-length * 0.5, width * 0.5), (-length * 0.25, 0.0), (-length * 0.5, -width * 0.5))
    return tuple((at[0] + x * cos - y * sin, at[1] + x * sin + y * cos) for x, y in shape)
