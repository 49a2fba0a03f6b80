"""A drive as GPX, for navigation: a route with a named point at each corner, and a track that is the line of it."""

from __future__ import annotations

from collections.abc import Iterable
from html import escape

from .errors import ListError
from .steps import steps_of
from .street_list import Corner, StreetList


def drive_gpx(streets: StreetList, drive: Iterable[int]) -> str:
    """The text of a GPX file. The corners of the drive need longitude and latitude."""
    route, track = [], []
    for step in steps_of(streets, drive):
        street = streets.streets[step.arc]
        here = point_of(streets, street.from_corner)
        name = f"{street.name} to {street.to_corner}{' (check)' if step.checked else ''}"
        route.append(f"  <rtept {here}><name>{escape(name)}</name></rtept>")
        track.append(f"   <trkpt {here}/>")
        there = point_of(streets, street.to_corner)
    track.append(f"   <trkpt {there}/>")
    name = escape(streets.path)
    return "\n".join(
        [
            '<?xml version="1.0" encoding="UTF-8"?>',
            '<gpx version="1.1" creator="postman" xmlns="http://www.topografix.com/GPX/1/1">',
            f" <rte><name>{name}</name>",
            *route,
            " </rte>",
            f" <trk><name>{name}</name>",
            "  <trkseg>",
            *track,
            "  </trkseg>",
            " </trk>",
            "</gpx>",
            "",
        ]
    )


def point_of(streets: StreetList, name: str) -> str:
    """A corner's degrees as GPX has them."""
    corner: Corner = streets.corners[streets.numbers[name]]
    if corner.lon is None:
        where = streets.corners_path or streets.path
        hint = "add these columns, or say where x 0 and y 0 lie by --origin"
        raise ListError(f"corner {name} has no lon and lat, which GPX needs: {hint}", where)
    return f'lat="{corner.lat}" lon="{corner.lon}"'
