"""What a refusal means in a street list: the rows, streets and corners that it is about, and what to do.

The refusals come from the library. What is looked for here is only the place in the list; whether there is a way from
one corner to another is the library's to say.
"""

from __future__ import annotations

from collections import Counter
from collections.abc import Collection, Iterator
from itertools import islice

from ..limits import MOST_ARCS, MOST_PAIRS, MOST_PARTS, MOST_VERTICES
from ..plan import Plan, Standing
from ..refusal import Refusal
from .street_list import StreetList

OPEN_A_WAY = "open or add a street on the way"

MOST_NAMED = 4
"""How many streets are named before the rest is counted."""


def explain(
    streets: StreetList, refusal: Refusal, *, must: Collection[int] | None = None, shut: Collection[int] = ()
) -> str:
    """A sentence that says where in the list the refusal is found and what to do.

    `must` are the arcs that must be driven where they are not the list's own, and `shut` those that are shut at
    departure.
    """
    if must is None:
        must = [arc for arc, street in enumerate(streets.streets) if street.must]
    found = None
    if refusal.number == Refusal.EXTENT:
        found = too_large(streets)
    elif refusal.number == Refusal.UNPRICED:
        found = unpriced(streets)
    elif refusal.number == Refusal.IDLE:
        found = "no street is must: write must in the column standing of each street that is to be checked"
    elif refusal.number == Refusal.SCATTERED:
        found = scattered(streets, must)
    elif refusal.number == Refusal.CUT_OFF:
        found = cut_off(streets, must, shut)
    elif refusal.number == Refusal.REPEATED:
        found = repeated(streets)
    return found or f"{refusal.sentence}. {refusal.advice}"


def too_large(streets: StreetList) -> str | None:
    """Refusal 3."""
    if len(streets.corners) > MOST_VERTICES:
        beyond = streets.corners[MOST_VERTICES].name
        found, most = f"{len(streets.corners)} corners", MOST_VERTICES
    elif len(streets.streets) > MOST_ARCS:
        beyond = streets.place(MOST_ARCS)
        found, most = f"{len(streets.streets)} {streets.unit}s", MOST_ARCS
    else:
        return None
    return f"{found}, and a plan has at most {most}; the first beyond them is {beyond}: cut the list into sheets"


def unpriced(streets: StreetList) -> str | None:
    """Refusal 6."""
    for arc, street in enumerate(streets.streets):
        column = "cost" if streets.edition == 1 else "checking"
        if street.must and (street.cost if streets.edition == 1 else street.checking) == 0:
            return f"{streets.place(arc)}: {column} is 0, and the street is must: write 1 or more"
    return None


def repeated(streets: StreetList) -> str | None:
    """Refusal 13."""
    seen: dict[tuple[int, ...], int] = {}
    for number, arc in enumerate(streets.plan.arcs):
        fields = (arc.tail, arc.head, arc.standing, arc.cost, arc.checking)
        if fields in seen:
            columns = "from, to, standing and cost" if streets.edition == 1 else "from, to, standing, cost and checking"
            both = f"{streets.place(seen[fields])} and {streets.place(number)}"
            return f"{both} agree in {columns}: delete one of them"
        seen[fields] = number
    return None


def parts_of(streets: StreetList, must: Collection[int]) -> list[list[int]]:
    """The must arcs by parts, which hang together whatever their direction; the part of the lowest corner first."""
    arcs = streets.plan.arcs
    part = list(range(len(streets.corners)))
    for number in must:
        old, new = sorted((part[arcs[number].tail], part[arcs[number].head]), reverse=True)
        part = [new if one == old else one for one in part]
    parts: dict[int, list[int]] = {}
    for number in must:
        parts.setdefault(part[arcs[number].tail], []).append(number)
    return [parts[lowest] for lowest in sorted(parts)]


def named(streets: StreetList, arcs: Collection[int]) -> str:
    """The names of arcs' streets, each once; the first few of them."""
    names = list(dict.fromkeys(streets.streets[arc].name for arc in arcs))
    more = len(names) - MOST_NAMED
    return ", ".join(names[:MOST_NAMED]) + (f" and {more} more" if more > 0 else "")


def scattered(streets: StreetList, must: Collection[int]) -> str:
    """Refusal 11."""
    parts = parts_of(streets, must)
    lines = [f"the must streets lie in {len(parts)} parts, and a plan has at most {MOST_PARTS}:"]
    lines += [f"  part {number}: {named(streets, arcs)}" for number, arcs in enumerate(parts)]
    lines.append("make streets between two parts must, or cut the list into sheets")
    return "\n".join(lines)


def cut_off(streets: StreetList, must: Collection[int], shut: Collection[int]) -> str | None:
    """Refusal 12."""
    found = pairs_without_way(streets, must, shut)
    if not found:
        return None
    # A corner that nobody can leave, or come to, tells more than two that are far apart.
    others = len(corners_of(streets, must)) - 1
    from_here, to_here = Counter(first for first, _ in found), Counter(second for _, second in found)
    left = [pair for pair in found if from_here[pair[0]] == others]
    reached = [pair for pair in found if to_here[pair[1]] == others]
    first, second = (left or reached or found)[0]
    more = ", nor to any other corner of a must street" if left else ""
    if reached and not left:
        more = ", nor from any other corner of a must street"
    at_first = next(number for number in must if first in ends_of(streets, number))
    at_second = next(number for number in must if second in ends_of(streets, number))
    word = "corner " if streets.unit == "arc" else ""
    way = f"from {word}{streets.corners[first].name} to {word}{streets.corners[second].name}"
    when = " at this departure" if shut else ""
    if at_first == at_second:
        return f"there is no way {way}{when}, the ends of {streets.place(at_first)}, which must be driven: {OPEN_A_WAY}"
    why = f"{streets.place(at_first)} and {streets.place(at_second)} must be driven"
    return f"there is no way {way}{more}{when}, and {why}: {OPEN_A_WAY}"


def corners_of(streets: StreetList, must: Collection[int]) -> list[int]:
    """The corners at which must streets begin and end."""
    return sorted({end for number in must for end in ends_of(streets, number)})


def ends_of(streets: StreetList, arc: int) -> tuple[int, int]:
    return streets.plan.arcs[arc].tail, streets.plan.arcs[arc].head


def pairs_without_way(streets: StreetList, must: Collection[int], shut: Collection[int]) -> list[tuple[int, int]]:
    """The pairs of corners of must streets with no way from one to the other, by the library's distances."""
    from ..calls import distances

    # Arcs that are shut are left out and not closed: closed they might agree with others, and the file be refused.
    plan = streets.plan
    driven = [arc for number, arc in enumerate(plan.arcs) if number not in shut and arc.standing is not Standing.CLOSED]
    file = Plan(plan.vertices, tuple(driven), plan.edition).write()
    required = corners_of(streets, must)
    pairs = iter([(first, second) for first in required for second in required if first != second])
    return [pair for page in pages(pairs) for pair, value in zip(page, distances(file, page).values) if value is None]


def pages(pairs: Iterator[tuple[int, int]]) -> Iterator[list[tuple[int, int]]]:
    """Pairs by pages, each as long as the library takes at once."""
    while page := list(islice(pairs, MOST_PAIRS)):
        yield page
