"""A drawing: what a picture shows, as points, lines and labels with classes, before any kind of file.

It is computed first; `svg` writes it. The files, the report and the desk share one drawing. Lengths are in points of
the sheet, 96 to the inch, y downwards.
"""

from __future__ import annotations

from collections.abc import Mapping
from dataclasses import dataclass, field

Point = tuple[float, float]


@dataclass(frozen=True)
class Line:
    """A polyline."""

    points: tuple[Point, ...]
    classes: str = ""


@dataclass(frozen=True)
class Area:
    """A closed polygon."""

    points: tuple[Point, ...]
    classes: str = ""


@dataclass(frozen=True)
class Dot:
    """A circle."""

    at: Point
    radius: float
    classes: str = ""


@dataclass(frozen=True)
class Box:
    """A rectangle with round corners."""

    at: Point
    width: float
    height: float
    round: float = 0.0
    classes: str = ""


@dataclass(frozen=True)
class Label:
    """A line of text whose middle height is at a point; `anchor` says which end of it: start, middle or end."""

    at: Point
    text: str
    classes: str = ""
    anchor: str = "middle"
    angle: float = 0.0


Shape = Line | Area | Dot | Box | Label


@dataclass(frozen=True)
class Group:
    """Shapes that are one thing to a reader: an arc, a pass, a corner. `title` is shown when it is pointed at."""

    classes: str
    shapes: tuple[Shape, ...]
    title: str = ""
    data: Mapping[str, object] = field(default_factory=dict)


@dataclass(frozen=True)
class Drawing:
    """A sheet with groups on it, those behind first. `title` and `description` are for readers who don't see it."""

    width: float
    height: float
    title: str
    description: str
    groups: tuple[Group, ...]
