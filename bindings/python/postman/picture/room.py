"""Where there is room for labels: what stands on the sheet already, and how much of it a label would cover."""

from __future__ import annotations

import math
from collections import defaultdict
from collections.abc import Iterable, Sequence

from .drawing import Point

# The sheet is counted in cells, in points of the sheet. A row of cells is wider than any sheet.
CELL = 3.0
ROW = 4096


def text_width(text: str, size: float) -> float:
    """About how wide a line of text is. What is drawn depends on the reader's fonts; this is on the wide side."""
    return size * (0.3 + sum(0.36 if letter in "fijlrtI1.,' -()" else 0.62 for letter in text))


class Room:
    """Points that labels should not cover, each with a weight."""

    def __init__(self) -> None:
        self._cells: dict[int, float] = defaultdict(float)

    def take(self, points: Iterable[Point], weight: float) -> None:
        """These points are taken."""
        for x, y in points:
            self._cells[ROW * int(y // CELL) + int(x // CELL)] += weight

    def take_line(self, points: Sequence[Point], weight: float) -> None:
        """A polyline is taken, every few points of its length."""
        for one, other in zip(points, points[1:]):
            count = max(1, int(math.dist(one, other) // 4))
            across, down = (other[0] - one[0]) / count, (other[1] - one[1]) / count
            self.take(((one[0] + across * k, one[1] + down * k) for k in range(count + 1)), weight)

    def crowd(self, points: Iterable[Point], radius: float) -> float:
        """The weight of what lies about within a radius of these points."""
        reach = max(1, int(radius // CELL))
        around = [ROW * down + across for down in range(-reach, reach + 1) for across in range(-reach, reach + 1)]
        weight = self._cells.get
        total = 0.0
        for x, y in points:
            cell = ROW * int(y // CELL) + int(x // CELL)
            for other in around:
                total += weight(cell + other, 0.0)
        return total


def spine(at: Point, width: float, anchor: str, angle: float = 0.0) -> list[Point]:
    """Points along the middle of a line of text."""
    return _row(at, width, anchor, angle, 0.0)


def body(at: Point, width: float, anchor: str, angle: float = 0.0) -> list[Point]:
    """Points all over a line of text: what it takes."""
    return [point for down in (-3.5, 0.0, 3.5) for point in _row(at, width, anchor, angle, down)]


def _row(at: Point, width: float, anchor: str, angle: float, down: float) -> list[Point]:
    start = {"start": 0.0, "middle": -width / 2, "end": -width}[anchor]
    count = max(1, int(width // 5))
    cos, sin = math.cos(angle), math.sin(angle)
    across = [start + width * k / count for k in range(count + 1)]
    return [(at[0] + x * cos - down * sin, at[1] + x * sin + down * cos) for x in across]
