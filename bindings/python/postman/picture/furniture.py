"""What stands around a picture: title, legend, scale."""

from __future__ import annotations

import math
from collections.abc import Sequence
from dataclasses import replace

from .drawing import Box, Group, Label, Line, Shape
from .ground import HEADER, ROW, Ground
from .room import text_width

SIDE = 14.0
_LEGEND_TEXT = 10.0
_SAMPLE = 44.0
_SCALE = 190.0


def header(title: str, subtitle: str) -> Group:
    """The title and the line under it."""
    lines = (Label((SIDE, 20), title, "title", "start"), Label((SIDE, 42), subtitle, "subtitle", "start"))
    return Group("header", lines)


def guesses(ground: Ground) -> list[Group]:
    """A note below the title, on the right, on corners without coordinates among others that have them."""
    if not ground.guessed:
        return []
    if ground.guessed == 1:
        note = "1 corner without coordinates lies near its neighbours."
    else:
        note = f"{ground.guessed} corners without coordinates lie near their neighbours."
    return [Group("note", (Label((ground.width - SIDE, HEADER + 2), note, anchor="end"),))]


def legend(ground: Ground, entries: Sequence[tuple[str, Sequence[Shape], str]]) -> list[Group]:
    """Samples with their words, in rows at the foot of the sheet. A sample is drawn at 0, 0 and is 44 wide."""
    groups = []
    left, row = SIDE, 0
    for classes, sample, words in entries:
        width = _SAMPLE + 6 + text_width(words, _LEGEND_TEXT) + 16
        # The scale stands beside the first two rows, the note that there is none beside the second.
        taken = _SCALE if (row < 2 if ground.per_metre else row == 1) else 0.0
        if left + width > ground.width - SIDE - taken and left > SIDE:
            left, row = SIDE, row + 1
        top = ground.height - ground.footer + 24 + ROW * row
        shapes = [_moved(shape, left, top) for shape in sample]
        shapes.append(Label((left + _SAMPLE + 6, top), words, "words", "start"))
        groups.append(Group(f"legend {classes}", tuple(shapes)))
        left += width
    return groups


def rule(ground: Ground) -> Group:
    """The line between the picture and its foot."""
    top = ground.height - ground.footer + 6
    return Group("foot", (Line(((SIDE, top), (ground.width - SIDE, top)), "grid"),))


def scale_bar(ground: Ground) -> Group:
    """A bar of round length in metres; or a note where the corners have no coordinates."""
    top = ground.height - ground.footer + 24
    right = ground.width - SIDE
    if ground.per_metre is None:
        note = "Not to scale: the corners have no coordinates."
        return Group("note", (Label((right, top + ROW), note, anchor="end"),))
    metres = _round_length(150 / ground.per_metre)
    width = metres * ground.per_metre
    left = right - width
    half = width / 2
    halves = (Box((left, top), half, 5, classes="block"), Box((left + half, top), half, 5, classes="blank"))
    words = f"{metres / 1000:g} km" if metres >= 1000 else f"{metres:g} m"
    labels = (Label((left, top + 15), "0"), Label((right, top + 15), words, anchor="end"))
    return Group("scale", halves + labels)


def _round_length(most: float) -> float:
    """The longest of 1, 2 and 5 times a power of ten that is at most this."""
    power = 10.0 ** math.floor(math.log10(most))
    return max(step * power for step in (1, 2, 5) if step * power <= most)


def _moved(shape: Shape, left: float, top: float) -> Shape:
    if hasattr(shape, "points"):
        return replace(shape, points=tuple((x + left, y + top) for x, y in shape.points))
    return replace(shape, at=(shape.at[0] + left, shape.at[1] + top))
