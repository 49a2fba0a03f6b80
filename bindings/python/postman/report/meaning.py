"""What cost, floor and gap mean, in two sentences, and what each kind of pass is there for."""

from __future__ import annotations

from ..answer import Answer
from ..picture.passes import Pass, Purpose
from ..picture.percent import percent


def meaning(answer: Answer) -> str:
    """Two sentences for whoever pays for the drive."""
    if answer.cost == answer.floor:
        return (
            f"The drive passes every must street and costs {answer.cost:,}. "
            "No drive, laid by anyone, costs less: the floor, which is proved, is as high as the cost."
        )
    return (
        f"The drive passes every must street and costs {answer.cost:,}; no drive, laid by anyone, costs less than the "
        f"floor of {answer.floor:,}, which is proved. {above(answer)}"
    )


def above(answer: Answer) -> str:
    """How far a drive with a gap may be above the cheapest one."""
    if answer.floor == 0:
        return "How much dearer it is than the cheapest drive a floor of 0 does not tell."
    return f"So it is at most {percent(answer)} dearer than the cheapest drive, whichever that is."


def does(one: Pass) -> str:
    """What a pass does, in a few words."""
    match one.purpose:
        case Purpose.CHECK:
            return "checks the street"
        case Purpose.JOINING:
            return f"joining: from part {one.leaves} to part {one.reaches}"
        case _:
            return f"balancing: back into part {one.leaves}"


WHY = (
    "A must street is checked on its first pass; every other pass is extra. What extra passes do is told by the drive "
    "itself. Those on the way from a check in one part to a check in another are called <em>joining</em>: a single drive "
    "has to reach every part. Those on the way from one check to the next within a part are called <em>balancing</em>: "
    "where must streets and joining passes come into a corner more often than they leave it, the car leaves it by an "
    "extra pass."
)
