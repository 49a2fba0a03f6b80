"""A gap in per cent, rounded up: a drive is at most that much dearer than the cheapest one."""

from __future__ import annotations

from ..answer import Answer


def percent(answer: Answer) -> str:
    """The gap between cost and floor in hundredths of a per cent of the floor."""
    if answer.cost == answer.floor:
        return "0 %"
    if answer.floor == 0:
        return "unbounded"
    hundredths = -(-10_000 * (answer.cost - answer.floor) // answer.floor)
    return f"{hundredths // 100:,}.{hundredths % 100:02} %"
