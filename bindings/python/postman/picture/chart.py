"""Cost and floor over the budget, on a logarithmic scale."""

from __future__ import annotations

import math
from collections.abc import Callable, Sequence

from ..answer import Answer
from .drawing import Area, Box, Dot, Drawing, Group, Label, Line, Point, Shape
from .percent import percent

WIDTH, HEIGHT = 760.0, 430.0
LEFT, RIGHT, TOP, BOTTOM = 84.0, 120.0, 66.0, 62.0


def budgets(rows: Sequence[tuple[int, Answer]], title: str = "What a raised budget buys") -> Drawing:
    """The chart of the answers at some budgets, in ascending order."""
    low, high = min(answer.floor for _, answer in rows), max(answer.cost for _, answer in rows)
    ticks = _ticks(low, high)
    first, last = math.log10(rows[0][0]), math.log10(rows[-1][0])

    def at(budget: int, value: float) -> Point:
        share = (math.log10(budget) - first) / (last - first) if last > first else 0.5
        up = (value - ticks[0]) / (ticks[-1] - ticks[0])
        return (LEFT + share * (WIDTH - LEFT - RIGHT), HEIGHT - BOTTOM - up * (HEIGHT - TOP - BOTTOM))

    costs = [at(budget, answer.cost) for budget, answer in rows]
    floors = [at(budget, answer.floor) for budget, answer in rows]
    groups = [
        Group("header", (Label((16, 22), title, "title", "start"), Label((16, 44), _words(rows), "subtitle", "start"))),
        Group("chart", tuple(_axes(rows, ticks, at))),
        Group("chart", (Area(tuple(costs) + tuple(reversed(floors)), "gap"),)),
    ]
    end = WIDTH - RIGHT + 14
    cost_end, floor_end = costs[-1][1], floors[-1][1]
    if floor_end - cost_end < 18:
        middle = (cost_end + floor_end) / 2
        cost_end, floor_end = middle - 9, middle + 9
    for name, points, value, height in (
        ("floor", floors, rows[-1][1].floor, floor_end),
        ("cost", costs, rows[-1][1].cost, cost_end),
    ):
        shapes: list[Shape] = [Line(tuple(points), "line")]
        for point, (budget, answer) in zip(points, rows):
            if name == "cost":
                shapes.append(Box((point[0] - 4.5, point[1] - 4.5), 9, 9, 1, "bead"))
            else:
                shapes.append(Dot(point, 3.6, "bead"))
        shapes.append(Label((end, height), f"{name} {value:,}", anchor="start"))
        groups.append(Group(f"chart {name}", tuple(shapes)))
    for point, (budget, answer) in zip(costs, rows):
        spot = (Box((point[0] - 12, TOP), 24, HEIGHT - TOP - BOTTOM, classes="hit area"),)
        groups.append(Group("budget", spot, _row(budget, answer), {"budget": budget}))
    return Drawing(WIDTH, HEIGHT, title, _words(rows), tuple(groups))


def _axes(rows: Sequence[tuple[int, Answer]], ticks: Sequence[float], at: Callable[[int, float], Point]) -> list[Shape]:
    shapes: list[Shape] = []
    for tick in ticks:
        start, end = at(rows[0][0], tick), at(rows[-1][0], tick)
        shapes.append(Line(((LEFT - 8, start[1]), (WIDTH - RIGHT + 8, end[1])), "grid"))
        shapes.append(Label((LEFT - 14, start[1]), f"{tick:,.0f}", anchor="end"))
    bottom = HEIGHT - BOTTOM
    for budget, _ in rows:
        x = at(budget, ticks[0])[0]
        shapes.append(Line(((x, bottom), (x, bottom + 5)), "rule"))
        shapes.append(Label((x, bottom + 16), f"{budget:,}"))
    shapes.append(Line(((LEFT - 8, bottom), (WIDTH - RIGHT + 8, bottom)), "rule"))
    shapes.append(Label((LEFT + (WIDTH - LEFT - RIGHT) / 2, HEIGHT - 18), "budget: trees tried at most", "axis"))
    return shapes


def _ticks(low: float, high: float) -> list[float]:
    """Round values from below the lowest to above the highest, four to eight of them."""
    spread = max(high - low, high * 0.01, 4)
    power = 10.0 ** math.floor(math.log10(spread / 5))
    step = max(1.0, next(k * power for k in (1, 2, 5, 10) if spread / (k * power) <= 6))
    first = math.floor(low / step - 0.2)
    last = math.ceil(high / step + 0.2)
    return [max(0.0, step * k) for k in range(max(0, first), last + 1)]


def _words(rows: Sequence[tuple[int, Answer]]) -> str:
    for budget, answer in rows:
        if answer.whole:
            tried = f"From a budget of {answer.trees:,} on all trees are tried"
            return f"{tried}: no drive is cheaper than {answer.cost:,}."
    last = rows[-1][1]
    if last.cost == last.floor:
        return f"Cost and floor meet: no drive is cheaper than {last.cost:,}."
    return f"At {rows[-1][0]:,} trees the drive costs {last.cost:,}; the gap to the floor is {percent(last)}."


def _row(budget: int, answer: Answer) -> str:
    whole = ", all trees" if answer.whole else ""
    return f"budget {budget:,}: cost {answer.cost:,}, floor {answer.floor:,}, {answer.trees:,} trees{whole}"
