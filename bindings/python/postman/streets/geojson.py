"""GeoJSON in and out: streets as lines, a drive as lines in the order in which they are driven.

Coordinates are degrees of longitude and latitude, as GeoJSON has them; where any is beyond 180 they are taken for
metres of some national grid.
"""

from __future__ import annotations

from collections.abc import Callable, Iterable, Mapping
from math import asin, cos, hypot, radians, sin, sqrt
from typing import Any, NamedTuple

from ..answer import Answer
from ..plan import Standing
from .csv_file import STANDINGS
from .earth import DEGREE, EARTH_RADIUS
from .errors import ListError, clipped
from .json_text import parsed
from .street_list import HIGHEST_COST, Corner, Street, StreetList
from .table import FARTHEST, decoded, name_of, read_bytes

FORWARD = ("yes", "true", "1")
BACKWARD = ("-1", "reverse")
NO = ("", "no", "false", "0")
IN_TURNS = ("alternating", "reversible")
"""One way at a time, by signals or by the hour: both can be driven, though not at once."""

Point = tuple[float, float]
Key = Callable[[Point], Point]


class Line(NamedTuple):
    """A line of a map: the number of its feature, its properties and its points."""

    feature: int
    properties: Mapping[str, Any]
    points: tuple[Point, ...]


def from_geojson(
    source: str | Mapping[str, Any],
    *,
    street: str = "name",
    cost: str | None = None,
    must: str | None = None,
    checking: str | None = None,
    both_ways: bool = False,
    data: bytes | None = None,
) -> StreetList:
    """The street list of a map's LineStrings, whose end points are the corners.

    `source` is a file or what was read from one. The property `street` has a line's name. `cost` names the property
    with its cost; without it the cost is the length in metres. `must` names the property that says which streets must
    be driven ("survey", or "survey=2026" for one value of it), `checking` the one with the cost of their checking
    pass. A property `standing` (may, must, closed) is taken where `must` is not given. `oneway` is read as in
    OpenStreetMap. A street of two directions is must in the direction of its line and may be driven back; with
    `both_ways` it is must in both.

    Corners are named by a Point with a name, or after the streets that meet there.
    """
    path = source if isinstance(source, str) else "GeoJSON"
    if isinstance(source, str):
        features = features_of(path, parsed(path, decoded(read_bytes(path) if data is None else data, path)))
    else:
        features = features_of(path, source)
    lines, names = lines_of(path, features)
    if not lines:
        raise ListError("has no LineString; each street is one", path)
    on_earth = not any(abs(x) > 180 or abs(y) > 90 for line in lines for x, y in line.points)
    key = key_of(on_earth)
    reader = LineReader(path, street, cost, must, checking, both_ways, on_earth)
    corners = corners_of(lines, {key(point): name for point, name in names}, key, reader, on_earth)
    streets = [
        one
        for line in lines
        for one in reader.streets(line, corners[key(line.points[0])].name, corners[key(line.points[-1])].name)
    ]
    edition = 1 if checking is None else 2
    notes = passing(lines, corners, key, reader) + in_turns(lines, reader)
    return StreetList(path, edition, tuple(corners.values()), tuple(streets), None, "feature", notes)


def features_of(path: str, value: Any) -> list[Mapping[str, Any]]:
    """The features of GeoJSON; a lone geometry counts as one."""
    kind = value.get("type") if isinstance(value, Mapping) else None
    if kind == "FeatureCollection":
        features = value.get("features") or []
        if not isinstance(features, list):
            raise ListError("is no GeoJSON: its features are no list", path)
        return features
    if kind == "Feature":
        return [value]
    if kind in ("LineString", "MultiLineString"):
        return [{"type": "Feature", "properties": {}, "geometry": value}]
    raise ListError("is no GeoJSON: its type is neither FeatureCollection nor Feature", path)


def lines_of(path: str, features: list[Mapping[str, Any]]) -> tuple[list[Line], list[tuple[Point, str]]]:
    """The lines, and the names of points."""
    lines: list[Line] = []
    names: list[tuple[Point, str]] = []
    for number, feature in enumerate(features, 1):
        try:
            geometry = feature.get("geometry") or {}
            properties = feature.get("properties") or {}
            if not isinstance(properties, Mapping):
                raise ListError("its properties are no object", path, number, unit="feature")
            kind = str(geometry.get("type"))
            if kind == "Point" and properties.get("name"):
                names.append((point_of(geometry["coordinates"]), name_of(str(properties["name"]))))
            coordinates: Any = geometry.get("coordinates")
            parts: Any = {"LineString": [coordinates], "MultiLineString": coordinates}.get(kind, [])
            for part in parts:
                points = tuple(map(point_of, part))
                if len(points) < 2:
                    raise ListError("a line needs two points", path, number, unit="feature")
                lines.append(Line(number, properties, points))
        except (AttributeError, KeyError, TypeError, ValueError):
            raise ListError("its geometry is no GeoJSON", path, number, unit="feature") from None
    return lines, names


def point_of(coordinates: Iterable[Any]) -> Point:
    """A point of a geometry; its height is passed over."""
    x, y, *_ = map(float, coordinates)
    if not (abs(x) <= FARTHEST and abs(y) <= FARTHEST):
        raise ValueError(f"no place is as far away as {x}, {y}")
    return x, y


def key_of(on_earth: bool) -> Key:
    """What makes two end points one corner: that they agree to about a centimetre."""
    digits = 7 if on_earth else 2
    return lambda point: (round(point[0], digits), round(point[1], digits))


def corners_of(
    lines: list[Line], named: dict[Point, str], key: Key, reader: LineReader, on_earth: bool
) -> dict[Point, Corner]:
    """The corners in the order in which they first occur, with names that differ."""
    meeting: dict[Point, dict[str, None]] = {}
    for line in lines:
        for end in (line.points[0], line.points[-1]):
            meeting.setdefault(key(end), {})[reader.name(line)] = None
    west = min(point[0] for point in meeting)
    south = min(point[1] for point in meeting)
    middle = radians(sum(point[1] for point in meeting) / len(meeting))
    taken: set[str] = set()
    corners = {}
    for number, (point, streets) in enumerate(meeting.items(), 1):
        crossing = [name for name in streets if name]
        wanted = named.get(point) or " / ".join(crossing[:2]) or f"corner {number}"
        if point not in named and len(crossing) == 1:
            wanted = f"{crossing[0]}, end"
        name, count = wanted, 1
        while name in taken:
            count += 1
            name = f"{wanted} ({count})"
        taken.add(name)
        if on_earth:
            x, y = (point[0] - west) * DEGREE * cos(middle), (point[1] - south) * DEGREE
            corners[point] = Corner(name, round(x, 1), round(y, 1), *point)
        else:
            corners[point] = Corner(name, *point)
    return corners


def passing(lines: list[Line], corners: dict[Point, Corner], key: Key, reader: LineReader) -> tuple[str, ...]:
    """A note on lines that pass through corners of others: a car cannot turn there."""
    found = [(line, key(point)) for line in lines for point in line.points[1:-1] if key(point) in corners]
    if not found:
        return ()
    line, point = found[0]
    count = len({id(line) for line, _ in found})
    many = "1 line passes" if count == 1 else f"{count} lines pass"
    where = f"feature {line.feature} ({reader.name(line) or 'no name'}) at {corners[point].name}"
    return (f"{many} through corners without ending there, such as {where}: split them there for turns",)


def in_turns(lines: list[Line], reader: LineReader) -> tuple[str, ...]:
    """A note on lines whose direction changes: both are taken."""
    found = [line for line in lines if text_of(line.properties.get("oneway")).lower() in IN_TURNS]
    if not found:
        return ()
    many = "1 line is" if len(found) == 1 else f"{len(found)} lines are"
    where = f"feature {found[0].feature} ({reader.name(found[0]) or 'no name'})"
    return (f"{many} one way in turns, such as {where}, and taken for both: close the one that is shut",)


class LineReader(NamedTuple):
    """How the properties of a line are read."""

    path: str
    street: str
    cost: str | None
    must: str | None
    checking: str | None
    both_ways: bool
    on_earth: bool

    def name(self, line: Line) -> str:
        return name_of(text_of(line.properties.get(self.street)))

    def error(self, line: Line, column: str, message: str) -> ListError:
        return ListError(message, self.path, line.feature, column, self.name(line), "feature")

    def streets(self, line: Line, first: str, last: str) -> Iterable[Street]:
        """The one or two streets of a line, from its first point to its last and back."""
        standing = self.standing(line)
        cost = self.price(line, self.cost, standing) if self.cost else self.length(line)
        directions = self.directions(line, first == last)
        for number, (tail, head) in enumerate([(first, last), (last, first)]):
            if number not in directions:
                continue
            own = standing
            if standing is Standing.MUST and number == 1 and len(directions) == 2 and not self.both_ways:
                own = Standing.MAY
            checking = self.price(line, self.checking, own) if self.checking and own is Standing.MUST else None
            yield Street(line.feature, tail, head, own, cost, checking, self.name(line))

    def directions(self, line: Line, ring: bool) -> tuple[int, ...]:
        """0 for the line's direction, 1 for the other. A ring's two directions would be one street typed twice."""
        oneway = text_of(line.properties.get("oneway")).lower()
        if not oneway and text_of(line.properties.get("junction")).lower() in ("roundabout", "circular"):
            oneway = "yes"
        if not oneway and text_of(line.properties.get("highway")).lower() in ("motorway", "motorway_link"):
            oneway = "yes"
        if oneway in FORWARD:
            return (0,)
        if oneway in BACKWARD:
            return (1,)
        if oneway not in (*NO, *IN_TURNS):
            raise self.error(line, "oneway", f"oneway {oneway} is none of yes, no and -1")
        return (0,) if ring else (0, 1)

    def standing(self, line: Line) -> Standing:
        if self.must is not None:
            name, _, wanted = self.must.partition("=")
            found = text_of(line.properties.get(name))
            must = found == wanted if wanted else found.lower() not in NO
            return Standing.MUST if must else Standing.MAY
        word = text_of(line.properties.get("standing")).lower()
        if word and word not in STANDINGS:
            raise self.error(line, "standing", f"standing {word} is none of may, must and closed")
        return STANDINGS[word] if word else Standing.MAY

    def price(self, line: Line, column: str, standing: Standing) -> int:
        text = text_of(line.properties.get(column))
        try:
            number = float(text)
        except ValueError:
            raise self.error(line, column, f"{column} is {clipped(text) or 'empty'}, and no number") from None
        if not 0 <= number <= HIGHEST_COST:
            raise self.error(line, column, f"{column} {clipped(text)} is not between 0 and {HIGHEST_COST}")
        if number != int(number):
            raise self.error(line, column, f"{column} {clipped(text)} is not a whole number")
        return int(number)

    def length(self, line: Line) -> int:
        """The line's length in whole metres, at least 1."""
        measure = on_earth if self.on_earth else hypot_of
        metres = max(1, round(sum(measure(a, b) for a, b in zip(line.points, line.points[1:]))))
        if metres > HIGHEST_COST:
            raise self.error(line, "length", f"its length of {metres} m is above {HIGHEST_COST}")
        return metres


def text_of(value: Any) -> str:
    """A property as text; true and false as JSON writes them, whole numbers without a fraction."""
    if value is None:
        return ""
    if isinstance(value, bool):
        return "true" if value else "false"
    if isinstance(value, float) and value.is_integer():
        return str(int(value))
    return str(value).strip()


def hypot_of(a: Point, b: Point) -> float:
    return hypot(b[0] - a[0], b[1] - a[1])


def on_earth(a: Point, b: Point) -> float:
    """The metres between two points of the earth."""
    (west, south), (east, north) = [tuple(map(radians, point)) for point in (a, b)]
    half = sin((north - south) / 2) ** 2 + cos(south) * cos(north) * sin((east - west) / 2) ** 2
    return 2 * EARTH_RADIUS * asin(min(1.0, sqrt(half)))


def coordinates(streets: StreetList, name: str) -> Point | None:
    """A corner's degrees if they are known, else its metres."""
    corner = streets.corners[streets.numbers[name]]
    for pair in ((corner.lon, corner.lat), (corner.x, corner.y)):
        if pair[0] is not None and pair[1] is not None:
            return pair[0], pair[1]
    return None


def drive_geojson(streets: StreetList, drive: Answer | Iterable[int]) -> dict[str, Any]:
    """A drive, or an answer's, as GeoJSON: a LineString for each place, in the order driven.

    Its properties are the columns of the drive as CSV. Where a corner has no coordinates, its lines have no geometry.
    """
    from .steps import steps_of

    features = []
    for step in steps_of(streets, drive.drive if isinstance(drive, Answer) else drive):
        street = streets.streets[step.arc]
        ends = [coordinates(streets, name) for name in (street.from_corner, street.to_corner)]
        known = [list(end) for end in ends if end is not None]
        geometry = {"type": "LineString", "coordinates": known} if len(known) == 2 else None
        properties = {
            "step": step.number,
            "arc": step.arc,
            "street": street.street,
            "from": street.from_corner,
            "to": street.to_corner,
            "checked": step.checked,
            "cost": step.cost,
        }
        features.append({"type": "Feature", "properties": properties, "geometry": geometry})
    return {"type": "FeatureCollection", "features": features}
