"""Where corners go that have no coordinates: stress majorisation from distances in hops, from a fixed start.

Two corners that are k streets apart are to lie k steps apart on the sheet; the sum of the squared errors, each over k
squared, is lowered corner by corner. Nothing is drawn at random, so that a plan has the same picture each time.
"""

from __future__ import annotations

import math
from collections.abc import Iterable, Mapping, Sequence
from functools import lru_cache

Point = tuple[float, float]

# A sweep moves every corner once. Towns settle in well under a hundred.
SWEEPS = 200
SETTLED = 1e-4

# The gap between pieces that no street joins, in steps.
PIECE_GAP = 1.2


def lay_out(count: int, pairs: Iterable[tuple[int, int]]) -> tuple[Point, ...]:
    """Points for corners 0 to count - 1, of which `pairs` are joined, in steps; y grows downwards."""
    return _laid(count, frozenset((min(pair), max(pair)) for pair in pairs))


def lay_beside(known: Mapping[int, Point], count: int, pairs: Iterable[tuple[int, int]]) -> tuple[Point, ...]:
    """Points for all corners where those of `known` are given, in their measure: these stay, and the others go near
    their neighbours. What no street joins to a known one goes below all that are."""
    return _laid_beside(tuple(known.items()), count, frozenset((min(pair), max(pair)) for pair in pairs))


@lru_cache(maxsize=16)
def _laid_beside(
    given: tuple[tuple[int, Point], ...], count: int, pairs: frozenset[tuple[int, int]]
) -> tuple[Point, ...]:
    known = dict(given)
    near = _neighbours(count, pairs)
    step = _usual_step(known, near)
    hops = {corner: _hops(near, corner) for corner in range(count) if corner not in known}
    points = _start_beside({corner: (x / step, y / step) for corner, (x, y) in given}, hops)
    for _ in range(SWEEPS):
        moved = 0.0
        for corner, reached in hops.items():
            if any(other in known for other in reached):
                before = points[corner]
                points[corner] = _pulled(corner, points, reached.items())
                moved = max(moved, math.dist(before, points[corner]))
        if moved < SETTLED:
            break
    return tuple((points[corner][0] * step, points[corner][1] * step) for corner in range(count))


def _start_beside(known: dict[int, Point], hops: Mapping[int, Mapping[int, int]]) -> dict[int, Point]:
    """All points, the unknown ones in the middle of those known ones that are nearest by hops."""
    points = dict(known)
    left, below = min(x for x, _ in known.values()), max(y for _, y in known.values()) + 1.0
    for corner, reached in hops.items():
        nearest = min((far for other, far in reached.items() if other in known), default=None)
        if nearest is None:
            points[corner], left = (left, below), left + 1.0
            continue
        beside = [known[other] for other, far in reached.items() if other in known and far == nearest]
        x, y = (sum(values) / len(beside) for values in zip(*beside))
        # A little beside them: two that have the same neighbours would stay on one point.
        points[corner] = (x + 0.1 * math.cos(corner), y + 0.1 * math.sin(corner))
    return points


def _usual_step(known: Mapping[int, Point], near: Sequence[set[int]]) -> float:
    """How far corners that a street joins lie apart: the middle one of those that are known."""
    joined = ((one, other) for one in known for other in near[one] if one < other and other in known)
    apart = sorted(filter(None, (math.dist(known[one], known[other]) for one, other in joined)))
    if apart:
        return apart[len(apart) // 2]
    wide = max(x for x, _ in known.values()) - min(x for x, _ in known.values())
    high = max(y for _, y in known.values()) - min(y for _, y in known.values())
    return max(wide, high) / math.sqrt(len(near))


@lru_cache(maxsize=16)
def _laid(count: int, pairs: frozenset[tuple[int, int]]) -> tuple[Point, ...]:
    """What was laid out is kept: a list has several pictures, and on the desk its streets stay where they are."""
    near = _neighbours(count, pairs)
    pieces = [(piece, _level(_settle(hops))) for piece, hops in _pieces(near)]
    return _pack(count, pieces)


def _neighbours(count: int, pairs: Iterable[tuple[int, int]]) -> list[set[int]]:
    near: list[set[int]] = [set() for _ in range(count)]
    for one, other in pairs:
        if one != other:
            near[one].add(other)
            near[other].add(one)
    return near


def _pieces(near: Sequence[set[int]]) -> list[tuple[list[int], list[list[int]]]]:
    """The pieces that streets join, largest first, each with the distances in hops between its corners."""
    pieces = []
    met: set[int] = set()
    for first in range(len(near)):
        if first in met:
            continue
        piece = sorted(_hops(near, first))
        met.update(piece)
        rows = []
        for corner in piece:
            hops = _hops(near, corner)
            rows.append([hops[other] for other in piece])
        pieces.append((piece, rows))
    return sorted(pieces, key=lambda entry: (-len(entry[0]), entry[0]))


def _hops(near: Sequence[set[int]], first: int) -> dict[int, int]:
    hops = {first: 0}
    row = [first]
    while row:
        reached = []
        for corner in row:
            for other in sorted(near[corner]):
                if other not in hops:
                    hops[other] = hops[corner] + 1
                    reached.append(other)
        row = reached
    return hops


def _settle(hops: Sequence[Sequence[int]]) -> list[Point]:
    """A piece's points of least stress, as far as sweeps from the start lower it."""
    count = len(hops)
    points = _start(hops)
    for _ in range(SWEEPS):
        moved = 0.0
        for i in range(count):
            before = points[i]
            points[i] = _pulled(i, points, enumerate(hops[i]))
            moved = max(moved, math.dist(points[i], before))
        if moved < SETTLED:
            break
    return points


def _pulled(corner: int, points: Mapping[int, Point] | Sequence[Point], hops: Iterable[tuple[int, int]]) -> Point:
    """Where the others would have a corner, each as far away as its hops."""
    x, y = points[corner]
    new_x = new_y = weights = 0.0
    for other, wanted in hops:
        if other == corner:
            continue
        weight = 1.0 / (wanted * wanted)
        other_x, other_y = points[other]
        apart = math.hypot(x - other_x, y - other_y)
        pull = wanted / apart if apart > 1e-9 else 0.0
        new_x += weight * (other_x + pull * (x - other_x))
        new_y += weight * (other_y + pull * (y - other_y))
        weights += weight
    return (new_x / weights, new_y / weights) if weights else (x, y)


def _start(hops: Sequence[Sequence[int]]) -> list[Point]:
    """Classical scaling: the two main axes of the squared hops, which already unfolds most towns."""
    count = len(hops)
    squares = [[-0.5 * d * d for d in row] for row in hops]
    means = [sum(row) / count for row in squares]
    mean = sum(means) / count
    matrix = [[squares[i][j] - means[i] - means[j] + mean for j in range(count)] for i in range(count)]
    across = _axis(matrix, None)
    down = _axis(matrix, across)
    # A little off the axes: corners with the same hops to all others would stay on one point.
    return [(across[i] + 0.01 * math.cos(i), down[i] + 0.01 * math.sin(i)) for i in range(count)]


def _axis(matrix: Sequence[Sequence[float]], square_to: Sequence[float] | None) -> list[float]:
    """The longest axis of a symmetric matrix, square to another one, by powers from a fixed vector."""
    vector = [math.sin(1.0 + 1.7 * i) for i in range(len(matrix))]
    length = 0.0
    for _ in range(100):
        if square_to is not None:
            share = _dot(vector, square_to) / (_dot(square_to, square_to) or 1.0)
            vector = [a - share * b for a, b in zip(vector, square_to)]
        image = [_dot(row, vector) for row in matrix]
        length = math.sqrt(_dot(image, image))
        if length < 1e-9:
            return [0.0] * len(matrix)
        vector = [a / length for a in image]
    return [a * math.sqrt(length) for a in vector]


def _dot(one: Sequence[float], other: Sequence[float]) -> float:
    return sum(a * b for a, b in zip(one, other))


def _level(points: list[Point]) -> list[Point]:
    """Turned so that the longest way through lies level, with the first corner in the upper left."""
    count = len(points)
    if count < 2:
        return [(0.0, 0.0)] * count
    centre_x = sum(x for x, _ in points) / count
    centre_y = sum(y for _, y in points) / count
    moved = [(x - centre_x, y - centre_y) for x, y in points]
    xx = sum(x * x for x, _ in moved)
    yy = sum(y * y for _, y in moved)
    xy = sum(x * y for x, y in moved)
    turn = 0.5 * math.atan2(2 * xy, xx - yy)
    cos, sin = math.cos(turn), math.sin(turn)
    turned = [(x * cos + y * sin, y * cos - x * sin) for x, y in moved]
    flip_x = -1.0 if turned[0][0] > 0 else 1.0
    flip_y = -1.0 if turned[0][1] > 0 else 1.0
    return [(x * flip_x, y * flip_y) for x, y in turned]


def _pack(count: int, pieces: Sequence[tuple[list[int], list[Point]]]) -> tuple[Point, ...]:
    """All pieces on one sheet: the largest first, the others in rows below it."""
    points: list[Point] = [(0.0, 0.0)] * count
    row_width = 0.0
    left = top = bottom = 0.0
    for place, (piece, own) in enumerate(pieces):
        low_x, high_x = min(x for x, _ in own), max(x for x, _ in own)
        low_y, high_y = min(y for _, y in own), max(y for _, y in own)
        if place == 0:
            row_width = max(high_x - low_x, math.sqrt(count) * PIECE_GAP)
        elif left + high_x - low_x > row_width or place == 1:
            left, top = 0.0, bottom + PIECE_GAP
        for corner, (x, y) in zip(piece, own):
            points[corner] = (left + x - low_x, top + y - low_y)
        left += high_x - low_x + PIECE_GAP
        bottom = max(bottom, top + high_y - low_y)
    return tuple(points)
