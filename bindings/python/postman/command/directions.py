"""A drive as directions, and what an answer's numbers say."""

from __future__ import annotations

from collections.abc import Iterable
from math import inf
from typing import Any

from ..answer import Answer
from ..limits import HIGHEST_BUDGET, HIGHEST_COUNT
from ..streets import StreetList
from ..streets.steps import Step, steps_of
from ..streets.table import written
from .output import Output, counted, per_cent

COLUMNS = ("step", "arc", "street", "from", "to", "checked", "cost")


def print_directions(output: Output, streets: StreetList, steps: Iterable[Step]) -> None:
    """The steps as a table; those on which a street is checked have a star."""
    rows = []
    for step in steps:
        street = streets.streets[step.arc]
        mark = "*" if step.checked else ""
        style = "green" if step.checked else ""
        ends = street.from_corner, street.to_corner
        rows.append((step.number, mark, street.street, *ends, counted(step.cost), style))
    output.table(("step", "*", "street", "from", "to", "cost"), rows, right=("step", "cost"))
    output.result("* the street is checked on this pass")


def print_figures(output: Output, answer: Answer, trees: int | None, deep: bool = False) -> None:
    """Cost, floor, gap, trees and parts, a line each, and a line of advice."""
    output.result(f"cost   {output.style(counted(answer.cost), 'bold')}")
    output.result(f"floor  {counted(answer.floor)}")
    output.result(f"gap    {per_cent(answer.gap)}")
    of_all = "in all rounds" if deep else f"of {count_said(trees)}"
    output.result(f"trees  {counted(answer.trees)} {of_all}")
    output.result(f"parts  {answer.parts}")
    output.result(deep_advice(answer) if deep else advice(answer, trees))


def deep_advice(answer: Answer) -> str:
    """What rounds say of a gap."""
    if answer.whole:
        return "The cost meets the floor: no drive is cheaper."
    return "More rounds may find a cheaper drive or a higher floor."


def count_said(trees: int | None) -> str:
    """A number of trees, which may be beyond what is counted."""
    return f"more than {counted(HIGHEST_COUNT)}" if trees is None else counted(trees)


def advice(answer: Answer, trees: int | None) -> str:
    """What the editor can do about a gap."""
    if answer.whole:
        return "Whole: all trees were tried, and no drive is cheaper."
    if answer.cost == answer.floor:
        return "The cost meets the floor: no drive is cheaper, though not all trees were tried."
    if trees is not None and trees <= HIGHEST_BUDGET:
        return f"A budget of {counted(trees)} would make it whole: --budget {trees}"
    if answer.trees < HIGHEST_BUDGET:
        return f"No budget can make it whole; one of {counted(HIGHEST_BUDGET)} may find a cheaper drive."
    return f"No budget can make it whole: the highest is {counted(HIGHEST_BUDGET)} trees."


def as_object(
    streets: StreetList, answer: Answer, trees: int | None, steps: list[Step] | None = None
) -> dict[str, Any]:
    """An answer for JSON: its words as keys, with streets and corners by name beside the numbers."""
    if steps is None:
        steps = steps_of(streets, answer.drive)
    return {
        "cost": answer.cost,
        "floor": answer.floor,
        "gap": finite(answer.gap),
        "trees": answer.trees,
        "tree_count": trees,
        "whole": answer.whole,
        "parts": answer.parts,
        "drive": list(answer.drive),
        "steps": [dict(zip(COLUMNS, row)) for row in rows_of(streets, steps)],
        "multipliers": list(answer.multipliers),
        "corners": [corner.name for corner in streets.corners],
    }


def finite(gap: float) -> float | None:
    """A gap for JSON, which has no infinity: above a floor of 0 there is none."""
    return None if gap == inf else gap


def rows_of(streets: StreetList, steps: Iterable[Step]) -> Iterable[tuple[int, int, str, str, str, bool, int]]:
    """The steps as rows under COLUMNS."""
    for step in steps:
        street = streets.streets[step.arc]
        ends = street.from_corner, street.to_corner
        yield step.number, step.arc, street.street, *ends, step.checked, step.cost


def as_csv(streets: StreetList, steps: Iterable[Step]) -> str:
    """A drive as the text of a CSV file."""
    rows = ((*row[:5], "yes" if row[5] else "", row[6]) for row in rows_of(streets, steps))
    return written(COLUMNS, rows)
