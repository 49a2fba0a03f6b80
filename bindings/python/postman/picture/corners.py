"""Corners on the sheet: dots with their names, inside the dot where all names are short, else where there is room."""

from __future__ import annotations

import math
from typing import NamedTuple

from ..streets.street_list import StreetList
from .drawing import Dot, Group, Label
from .ground import Ground
from .room import Room, body, spine, text_width

_SHORT_NAME = 3
_SIZE = 9.0

# Beside the dot, in the order in which a reader expects it: direction, and the end of the text that is near.
_SIDES = (
    ((1.0, 0.0), "start"),
    ((0.75, -0.9), "start"),
    ((0.75, 0.9), "start"),
    ((-1.0, 0.0), "end"),
    ((-0.75, -0.9), "end"),
    ((-0.75, 0.9), "end"),
    ((0.0, -1.3), "middle"),
    ((0.0, 1.3), "middle"),
)

# How far from the dot, and how bad that is; how bad it is to touch another name, and to stand nearer to another dot.
_REACHES = ((9.0, 0.0), (13.5, 2.0), (19.0, 8.0), (27.0, 20.0))
_TOUCHING = 40.0
_AMBIGUOUS = 9.0
_ROUNDS = 6


class _Place(NamedTuple):
    """A place for a name: how bad it is by itself, the label, and the box that it takes."""

    harm: float
    label: Label
    box: tuple[float, float, float, float]


class Corners:
    """The corners of a list on its ground. `required` are those of must streets."""

    def __init__(self, streets: StreetList, ground: Ground, required: set[int]) -> None:
        self._names = [corner.name for corner in streets.corners]
        self._points = ground.points
        self._width = ground.width
        self._required = required
        self._inside = all(len(name) <= _SHORT_NAME for name in self._names)
        self.rim = 9.5 if self._inside else 4.5

    def groups(self, room: Room) -> list[Group]:
        """The dots and the names, which take their room."""
        for x, y in self._points:
            room.take(((x + i * 2, y + j * 2) for i in (-1, 0, 1) for j in (-1, 0, 1)), 2.0)
        labels = None if self._inside else self._labels(room)
        return [self._group(number, None if labels is None else labels[number]) for number in range(len(self._names))]

    def _group(self, number: int, label: Label | None) -> Group:
        name, at = self._names[number], self._points[number]
        classes = "corner" if number in self._required else "corner plain"
        if label is not None:
            return Group(classes, (Dot(at, self.rim - 1.0, "dot"), label), name, {"corner": number})
        shapes = (Dot(at, self.rim, "dot"), Label(at, name))
        return Group(f"{classes} inside", shapes, f"corner {name}", {"corner": number})

    def _labels(self, room: Room) -> list[Label]:
        """A place for each name: the best by itself, then again and again the best beside the others."""
        places = [self._places(number, room) for number in range(len(self._names))]
        chosen = [min(own, key=lambda place: place.harm) for own in places]
        for _ in range(_ROUNDS):
            before = list(chosen)
            for number, own in enumerate(places):
                others = [place.box for other, place in enumerate(chosen) if other != number]
                chosen[number] = min(own, key=lambda place: place.harm + _TOUCHING * _touched(place.box, others))
            if chosen == before:
                break
        for place in chosen:
            width = place.box[2] - place.box[0]
            room.take(body(place.label.at, width, place.label.anchor), 6.0)
        return [place.label for place in chosen]

    def _places(self, number: int, room: Room) -> list[_Place]:
        name, (x, y) = self._names[number], self._points[number]
        width = text_width(name, _SIZE)
        # A name's near end is at most this far away, so that only these can be nearer to it.
        within = 2 * _REACHES[-1][0] * 1.3 + 3
        neighbours = [at for at in self._points if at != (x, y) and math.dist(at, (x, y)) < within]
        places = []
        for reach, far in _REACHES:
            for (across, down), anchor in _SIDES:
                at = (x + across * reach, y + down * reach)
                points = spine(at, width, anchor)
                harm = room.crowd(points, 5.0) + far
                left = points[0][0]
                if left < 4 or left + width > self._width - 4:
                    harm += 100.0
                near = points[{"start": 0, "middle": len(points) // 2, "end": -1}[anchor]]
                own = math.dist(near, (x, y))
                if any(math.dist(near, other) < own + 3 for other in neighbours):
                    harm += _AMBIGUOUS
                places.append(_Place(harm, Label(at, name, "halo", anchor), (left, at[1] - 5, left + width, at[1] + 5)))
        return places


def _touched(box: tuple[float, float, float, float], others: list[tuple[float, float, float, float]]) -> int:
    """How many boxes another one touches, with two letters' width between."""
    left, top, right, bottom = box
    return sum(1 for a, b, c, d in others if a < right + 11 and left < c + 11 and b < bottom + 1 and top < d + 1)
