"""Where the corners of a list lie on the sheet: at their coordinates, or laid out where there are none."""

from __future__ import annotations

import math
from dataclasses import dataclass

from ..streets.street_list import StreetList
from .drawing import Point
from .layout import lay_beside, lay_out

# A4 with a margin of a centimetre, in points of 96 to the inch.
LONG_SIDE = 1047.0
SHORT_SIDE = 718.0

HEADER = 56.0
ROW = 18.0
SIDE = 60.0
ABOVE = 34.0

# The longest step between neighbours where there are no coordinates, and the least gap between two corners.
LONGEST_STEP = 190.0
LEAST_GAP = 12.0


@dataclass(frozen=True)
class Ground:
    """The corners' points, the sheet's size, and the points of the sheet that are a metre, or None if not to scale."""

    points: tuple[Point, ...]
    width: float
    height: float
    per_metre: float | None
    guessed: int
    """How many corners have no coordinates, where others have them: these lie near their neighbours."""
    footer: float
    """The height of the foot. The legend takes two rows of a wide sheet, and three of a narrow one."""


def ground(streets: StreetList) -> Ground:
    """The ground of a list. Coordinates serve if they don't all agree."""
    known = {
        number: (corner.x, -corner.y)
        for number, corner in enumerate(streets.corners)
        if corner.x is not None and corner.y is not None
    }
    to_scale = len(set(known.values())) > 1
    guessed = len(streets.corners) - len(known) if to_scale else 0
    pairs = [(arc.tail, arc.head) for arc in streets.plan.arcs]
    if not to_scale:
        places = lay_out(len(streets.corners), pairs)
    elif guessed:
        places = lay_beside(known, len(streets.corners), pairs)
    else:
        places = tuple(known.values())
    left, right = min(x for x, _ in places), max(x for x, _ in places)
    top, bottom = min(y for _, y in places), max(y for _, y in places)
    wide, high = right - left, bottom - top
    width, tallest = (LONG_SIDE, SHORT_SIDE) if wide >= high else (SHORT_SIDE, LONG_SIDE)
    footer = ROW * (3 if width == LONG_SIDE else 4)
    room = (width - 2 * SIDE, tallest - HEADER - footer - 2 * ABOVE)
    scale = min(room[0] / wide if wide > 0 else math.inf, room[1] / high if high > 0 else math.inf)
    if not to_scale:
        scale = min(scale, LONGEST_STEP)
    height = high * scale + HEADER + footer + 2 * ABOVE
    shift = ((width - wide * scale) / 2 - left * scale, HEADER + ABOVE - top * scale)
    points = [(x * scale + shift[0], y * scale + shift[1]) for x, y in places]
    return Ground(_apart(points), width, height, scale if to_scale else None, guessed, footer)


def _apart(points: list[Point]) -> tuple[Point, ...]:
    """Corners on one spot, moved around it a little, so that each can be seen."""
    seen: dict[tuple[int, int], int] = {}
    moved = []
    for x, y in points:
        spot = (round(x / 3), round(y / 3))
        count = seen[spot] = seen.get(spot, -1) + 1
        turn = 2.4 * count
        reach = LEAST_GAP * math.sqrt(count)
        moved.append((x + reach * math.cos(turn), y + reach * math.sin(turn)))
    return tuple(moved)
