"""Metres of a plan as degrees of the earth, around a place, and back."""

from __future__ import annotations

from dataclasses import replace
from math import cos, radians

from .street_list import Corner, StreetList

EARTH_RADIUS = 6_371_008.8
"""The earth's mean radius in metres."""

DEGREE = EARTH_RADIUS * radians(1)
"""The metres of a degree of latitude."""


def placed(streets: StreetList, lat: float, lon: float) -> StreetList:
    """The list with degrees for its corners, where x 0 and y 0 lie at a place of the earth."""
    across = DEGREE * cos(radians(lat))

    def on_earth(corner: Corner) -> Corner:
        if corner.x is None or corner.y is None:
            return corner
        return replace(corner, lon=round(lon + corner.x / across, 7), lat=round(lat + corner.y / DEGREE, 7))

    return replace(streets, corners=tuple(map(on_earth, streets.corners)))
