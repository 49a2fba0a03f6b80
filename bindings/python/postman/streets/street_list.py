"""A street list: a plan as a person writes it, with names for corners and streets."""

from __future__ import annotations

from dataclasses import dataclass
from functools import cached_property

from ..plan import Arc, Plan, Standing
from .errors import ListError

HIGHEST_COST = 65535


@dataclass(frozen=True, slots=True)
class Corner:
    """A place where streets begin and end.

    `x` and `y` are metres to the east and to the north, for pictures; `lon` and `lat` degrees, for maps of the earth.
    Each pair is None where it is not known.
    """

    name: str
    x: float | None = None
    y: float | None = None
    lon: float | None = None
    lat: float | None = None


@dataclass(frozen=True, slots=True)
class Street:
    """A street in one direction: one row of the list, one arc of the plan.

    `row` is its row as a spreadsheet numbers it, `checking` what the pass costs on which a must street is checked
    (None where the list has no such column, or the street is not must), `street` its name, which may be "".
    """

    row: int
    from_corner: str
    to_corner: str
    standing: Standing
    cost: int
    checking: int | None
    street: str

    @property
    def name(self) -> str:
        """The street's name, or where it leads if it has none."""
        return self.street or f"{self.from_corner} to {self.to_corner}"

    @property
    def must(self) -> bool:
        """Whether it must be driven."""
        return self.standing is Standing.MUST

    @property
    def checked_at(self) -> int:
        """What the pass costs on which it is checked, 0 where it is not must."""
        if not self.must:
            return 0
        return self.cost if self.checking is None else self.checking


@dataclass(frozen=True)
class StreetList:
    """A street list. Its streets are the plan's arcs in this order, and its corners the vertices.

    `path` is the file that it was read from, `corners_path` that of its corners, and `unit` what a row is called
    there. `notes` are what the reader noticed that may be meant otherwise.
    """

    path: str
    edition: int
    corners: tuple[Corner, ...]
    streets: tuple[Street, ...]
    corners_path: str | None = None
    unit: str = "row"
    notes: tuple[str, ...] = ()

    @cached_property
    def numbers(self) -> dict[str, int]:
        """The corners' numbers by their names."""
        return {corner.name: number for number, corner in enumerate(self.corners)}

    @cached_property
    def plan(self) -> Plan:
        """The plan of the list."""
        number = self.numbers
        arcs = tuple(
            Arc(number[street.from_corner], number[street.to_corner], street.standing, street.cost, street.checked_at)
            for street in self.streets
        )
        return Plan(len(self.corners), arcs, self.edition)

    @cached_property
    def file(self) -> bytes:
        """The plan's file. It was read back by the proved reader and compared row by row with the list."""
        file = self.plan.write()
        self.compare(Plan.read(file))
        return file

    def compare(self, plan: Plan) -> None:
        """Raises an error at the first row that is another arc in `plan`."""
        counts = (len(self.corners), len(self.streets), self.edition)
        held = (plan.vertices, len(plan.arcs), plan.edition)
        for word, typed, found in zip(("corners", "streets", "edition"), counts, held):
            if typed != found:
                raise ListError(f"{word}: {typed} in the list, {found} in the plan's file", self.path)
        for street, arc in zip(self.streets, plan.arcs):
            columns: tuple[tuple[str, str | int, str | int], ...] = (
                ("from", street.from_corner, self.corners[arc.tail].name),
                ("to", street.to_corner, self.corners[arc.head].name),
                ("standing", street.standing.name.lower(), arc.standing.name.lower()),
                ("cost", street.cost, arc.cost),
                ("checking", street.checked_at, arc.checking),
            )
            for column, here, there in columns:
                if here != there:
                    raise self.error(street, column, f"{column} is {here} in the list and {there} in the plan's file")

    def error(self, street: Street, column: str | None, message: str) -> ListError:
        """An error at a street of the list."""
        return ListError(message, self.path, street.row, column, street.street, self.unit)

    def place(self, arc: int) -> str:
        """Where an arc stands in the list: "row 12 (Mill Lane)"."""
        street = self.streets[arc]
        if self.unit == "arc":
            return street.name
        return f"{self.unit} {street.row} ({street.name})"

    def leg(self, arc: int) -> str:
        """An arc by its street and ends: "Mill Lane from Mill to Market Square"."""
        street = self.streets[arc]
        ends = f"from {street.from_corner} to {street.to_corner}"
        return f"{street.street} {ends}" if street.street else f"the street {ends}"
