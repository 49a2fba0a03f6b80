"""The plan as data, read from a file and written to one."""

from __future__ import annotations

from collections.abc import Hashable, Mapping
from ctypes import c_uint8
from dataclasses import dataclass, field
from enum import IntEnum
from operator import index
from typing import TYPE_CHECKING, Any, Union

from ._lent import byte, unless_refused, word
from ._library import library
from .limits import COUNTS, EDITIONS, LONGEST_FILE, MOST_ARCS, RECORD_BYTES

if TYPE_CHECKING:
    import networkx

_HIGHEST_COST = 65535


class Standing(IntEnum):
    """What may be done with an arc."""

    MAY = 0
    """It may be driven."""
    MUST = 1
    """It must be driven."""
    CLOSED = 2
    """It is held in the file and never driven."""


@dataclass(frozen=True, slots=True)
class Arc:
    """A street that can be driven in one direction."""

    tail: int
    """The vertex at which it begins."""
    head: int
    """The vertex at which it ends."""
    standing: Standing
    """What may be done with it."""
    cost: int
    """What a pass costs, 0 to 65,535. It may be 0, but not in a must arc of edition 1."""
    checking: int = None  # type: ignore[assignment]
    """What the one pass costs on which a must arc is checked, 1 or more; 0 in all other arcs. If it is not given, or
    None, it is the cost in a must arc and 0 in any other; edition 1 has no others."""

    def __post_init__(self) -> None:
        keep = object.__setattr__
        keep(self, "tail", index(self.tail))
        keep(self, "head", index(self.head))
        keep(self, "standing", Standing(self.standing))
        keep(self, "cost", price("cost", self.cost))
        if self.checking is None:
            keep(self, "checking", self.cost if self.standing == Standing.MUST else 0)
        else:
            keep(self, "checking", price("checking cost", self.checking))


@dataclass(frozen=True, slots=True)
class Plan:
    """A directed graph of streets. Vertices are 0 to `vertices` − 1, and arcs go by their index."""

    vertices: int
    """The number of vertices, 1 to 64."""
    arcs: tuple[Arc, ...]
    """The arcs, 1 to 256."""
    edition: int = 1
    """The edition of its file: 2 has a checking cost beside the cost of each must arc."""
    names: tuple[Hashable, ...] = field(default=(), compare=False)
    """What the vertices are called, if they have names. No file holds them."""

    def __post_init__(self) -> None:
        keep = object.__setattr__
        keep(self, "vertices", index(self.vertices))
        keep(self, "arcs", tuple(self.arcs))
        keep(self, "edition", index(self.edition))
        keep(self, "names", tuple(self.names))

    @classmethod
    def read(cls, file: bytes | bytearray | memoryview) -> Plan:
        """Reads a plan file. Refuses with 1 to 7 and 13.

        >>> Plan.read(bytes.fromhex("10402001400141000003")).arcs[1]
        Arc(tail=1, head=0, standing=<Standing.MAY: 0>, cost=3, checking=0)
        """
        lent = (c_uint8 * (MOST_ARCS * RECORD_BYTES))()
        file = bytes(memoryview(file))
        number = unless_refused(library.postman_read_plan(file, len(file), lent, len(lent)))
        edition, rest = divmod(number, EDITIONS)
        vertices, m = divmod(rest, COUNTS)
        records = bytes(lent)
        arcs = (_from_record(records[k : k + RECORD_BYTES]) for k in range(0, m * RECORD_BYTES, RECORD_BYTES))
        return cls(vertices, tuple(arcs), edition)

    def write(self) -> bytes:
        """The plan's file in its edition. Refuses with 2, 3, 5, 6 and 13.

        >>> Plan(2, (Arc(0, 1, Standing.MUST, 5), Arc(1, 0, Standing.MAY, 3))).write().hex()
        '10402001400141000003'
        """
        records = b"".join(map(_to_record, self.arcs))
        lent = (c_uint8 * LONGEST_FILE)()
        length = library.postman_write_plan(
            word(self.edition), word(self.vertices), records, len(records), lent, len(lent)
        )
        return bytes(memoryview(lent)[: unless_refused(length)])

    @classmethod
    def from_networkx(
        cls,
        graph: networkx.DiGraph,
        *,
        standing: str = "standing",
        cost: str = "cost",
        checking: str = "checking",
        edition: int | None = None,
    ) -> Plan:
        """The plan of a networkx DiGraph or MultiDiGraph; see `postman.graph.from_networkx`."""
        from .graph import from_networkx

        return from_networkx(graph, standing=standing, cost=cost, checking=checking, edition=edition)

    @classmethod
    def from_geojson(cls, source: str | Mapping[str, Any], **options: Any) -> Plan:
        """The plan of a map's lines, with its corners as names; see `postman.streets.geojson.from_geojson`.

        That gives a street list, which has the streets' names too.
        """
        from dataclasses import replace

        from .streets import from_geojson

        streets = from_geojson(source, **options)
        return replace(streets.plan, names=tuple(corner.name for corner in streets.corners))

    def to_networkx(self, *, multigraph: bool = True) -> Any:
        """The plan as a networkx MultiDiGraph, or as a DiGraph; see `postman.graph.to_networkx`."""
        from .graph import to_networkx

        return to_networkx(self, multigraph=multigraph)


File = Union[Plan, bytes, bytearray, memoryview]
"""A plan file: anything like bytes, or a plan, which is written first."""


def file_bytes(file: File) -> bytes:
    """The bytes of a plan file, or of a plan's file. A plan that cannot be written is refused here."""
    if type(file) is bytes:
        return file
    if isinstance(file, Plan):
        return file.write()
    return bytes(memoryview(file))


def price(name: str, number: int) -> int:
    """A cost, if it has room in a file."""
    number = index(number)
    if number < 0:
        raise ValueError(f"{name} {number} is below 0")
    if number > _HIGHEST_COST:
        raise ValueError(f"{name} {number} is above {_HIGHEST_COST}")
    return number


def _to_record(arc: Arc) -> bytes:
    ends = bytes((byte(arc.tail), byte(arc.head), arc.standing))
    return ends + arc.cost.to_bytes(2, "big") + arc.checking.to_bytes(2, "big")


def _from_record(record: bytes) -> Arc:
    costs = int.from_bytes(record[3:5], "big"), int.from_bytes(record[5:7], "big")
    return Arc(record[0], record[1], Standing(record[2]), *costs)
