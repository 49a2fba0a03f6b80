"""Towns drawn by the rules of tests/reference/src/instances/drawn.rs.

`python3 drawn.py FOLDER COUNT [SEED]` writes so many as plan files, from this seed on.
"""

from __future__ import annotations

import sys
from pathlib import Path

import repository  # noqa: F401

from postman import Arc, Plan, Refusal, Standing
from postman.limits import MOST_ARCS

BITS = 2**64 - 1


class Random:
    """SplitMix64 (Steele, Lea, Flood), as tests/reference/src/random.rs has it."""

    def __init__(self, seed: int) -> None:
        self.state = seed

    def bits(self) -> int:
        self.state = (self.state + 0x9E37_79B9_7F4A_7C15) & BITS
        z = self.state
        z = ((z ^ z >> 30) * 0xBF58_476D_1CE4_E5B9) & BITS
        z = ((z ^ z >> 27) * 0x94D0_49BB_1331_11EB) & BITS
        return z ^ z >> 31

    def within(self, low: int, high: int) -> int:
        return low + self.bits() % (high - low + 1)

    def once_in(self, n: int) -> bool:
        return self.within(0, n - 1) == 0

    def shuffle(self, values: list) -> None:
        for i in range(len(values) - 1, 0, -1):
            j = self.within(0, i)
            values[i], values[j] = values[j], values[i]


def drawn_town(random: Random) -> Plan:
    """A grid of 25 to 49 crossings with some joined streets under revision around each of three to six of them."""
    side = random.within(5, 7)
    parts = random.within(3, 6)
    streets = []
    for v in range(side * side):
        if v % side + 1 < side:
            streets.append((v, v + 1))
        if v + side < side * side:
            streets.append((v, v + side))
    random.shuffle(streets)
    centres = list(range(side * side))
    random.shuffle(centres)
    del centres[parts:]

    def blocks(v: int, w: int) -> int:
        return abs(v // side - w // side) + abs(v % side - w % side)

    district = [min(range(parts), key=lambda c: blocks(v, centres[c])) for v in range(side * side)]
    revised: list[set[int]] = [set() for _ in range(parts)]
    arcs = []
    for v, w in streets + streets:
        length = random.within(60, 400)
        joined = revised[district[v]]
        is_revised = (
            district[v] == district[w] and len(joined) < 6 and (not joined or (v in joined) != (w in joined))
        )
        if not random.once_in(2):
            v, w = w, v
        back = Standing.MAY
        if is_revised:
            joined.update((v, w))
            back = Standing.MUST if random.once_in(2) else Standing.MAY
        arcs.append(Arc(v, w, Standing.MUST if is_revised else Standing.MAY, length))
        if not random.once_in(6):
            arcs.append(Arc(w, v, back, length))
    random.shuffle(arcs)
    return Plan(side * side, arcs[:MOST_ARCS])


def write_towns(folder: Path, count: int, seed: int = 1) -> list[Path]:
    """Writes so many towns, town-00001.plan and so on by their seeds. A seed that draws an arc twice is passed over,
    for no file can hold that; a town without a drive is not."""
    folder.mkdir(parents=True, exist_ok=True)
    paths: list[Path] = []
    while len(paths) < count:
        path = folder / f"town-{seed:05}.plan"
        try:
            path.write_bytes(drawn_town(Random(seed)).write())
            paths.append(path)
        except Refusal as refusal:
            if refusal.number != Refusal.REPEATED:
                raise
        seed += 1
    return paths


if __name__ == "__main__":
    if len(sys.argv) not in (3, 4):
        sys.exit(__doc__)
    write_towns(Path(sys.argv[1]), *map(int, sys.argv[2:]))
