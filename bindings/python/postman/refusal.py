"""The refusals."""

from __future__ import annotations


class Refusal(Exception):
    """Why a call was refused.

    Its number is one of the class's own, so that a refusal is told from others by name:

        try:
            answer = plan_call(file, 10_000)
        except Refusal as refusal:
            if refusal.number == Refusal.CUT_OFF:
                ...

    A refused call changes nothing. Of several refusals that apply the first is given; include/postman.h has the order.
    """

    TORN = 1
    EDITION = 2
    EXTENT = 3
    MARGIN = 4
    OFF_SHEET = 5
    UNPRICED = 6
    STANDING = 7
    SHORT_SHEET = 8
    BUDGET = 9
    IDLE = 10
    SCATTERED = 11
    CUT_OFF = 12
    REPEATED = 13
    FOREIGN = 14
    UNJOINED = 15
    MISSED = 16
    STRAY_PAIR = 17
    BAD_MARKS = 18
    BAD_WINDOW = 19
    MUST_SHUT = 20
    NO_MARK = 21
    FULL = 22
    ROUNDS = 23

    def __init__(self, number: int) -> None:
        if number not in _WORDS:
            raise ValueError(f"{number} is no refusal's number")
        super().__init__(number)

    @property
    def number(self) -> int:
        """The number, 1 to 23."""
        number: int = self.args[0]
        return number

    @property
    def word(self) -> str:
        """The trade word: "cut off"."""
        return _WORDS[self.number][0]

    @property
    def sentence(self) -> str:
        """What was found."""
        return _WORDS[self.number][1]

    @property
    def advice(self) -> str:
        """What to do about it."""
        return _WORDS[self.number][2]

    def __str__(self) -> str:
        return f"refusal {self.number}, {self.word}: {self.sentence}"

    def __repr__(self) -> str:
        return f"Refusal({self.number})"

    def __eq__(self, other: object) -> bool:
        return isinstance(other, Refusal) and other.number == self.number

    def __hash__(self) -> int:
        return hash((Refusal, self.number))


# The trade word, what was found, and what to do.
_WORDS: dict[int, tuple[str, str, str]] = {
    1: (
        "torn",
        "the file has under 3 bytes, or fewer than its arcs need",
        "Fetch the plan file again: its end is missing.",
    ),
    2: (
        "edition",
        "the edition is neither 1 nor 2",
        "Check that this is a plan file, and write it again in edition 1 or 2.",
    ),
    3: (
        "extent",
        "no vertex or more than 64, no arc or more than 256, or a list of more than 65,535 places",
        "Cut the plan into sheets of at most 64 vertices and 256 arcs, or send a shorter list.",
    ),
    4: (
        "margin",
        "the file has more bytes than its arcs need, or a fill bit is 1",
        "Fetch the plan file again: something stands after its last arc.",
    ),
    5: (
        "off sheet",
        "an arc's tail or head is no vertex",
        "Raise the number of vertices, or correct the arc's ends.",
    ),
    6: (
        "unpriced",
        "an arc's checking cost is wrong",
        "Give every must arc a checking cost of 1 or more, equal to its cost in edition 1, and all other arcs 0.",
    ),
    7: (
        "standing",
        "an arc's standing is above 2",
        "Use 0 for an arc that may be driven, 1 for one that must be, 2 for a closed one.",
    ),
    8: (
        "short sheet",
        "too few records, bytes, places or distances are lent",
        "Lend more room; the package lends enough by itself.",
    ),
    9: (
        "budget",
        "the budget is 0 or above 1,000,000",
        "Choose a budget from 1 to 1,000,000 trees.",
    ),
    10: (
        "idle",
        "no arc must be driven",
        "Mark at least one arc that must be driven.",
    ),
    11: (
        "scattered",
        "the plan has more than 8 parts",
        "Cut the plan into sheets, or mark streets between the parts as must until 8 parts are left.",
    ),
    12: (
        "cut off",
        "no drive exists: some required vertex has no path to another",
        "Open or add a street that leads to the vertex and one that leads away from it.",
    ),
    13: (
        "repeated",
        "two arcs agree in all their fields",
        "Take one of the two arcs out, or correct it.",
    ),
    14: (
        "foreign",
        "a judged list has a number that no arc has, or that of a closed arc; or a changed arc is none",
        "Use numbers of arcs that the plan has, and in a drive none of a closed arc.",
    ),
    15: (
        "unjoined",
        "an arc of a judged list does not lead to the next one, or the last one to the first",
        "Put in the arcs that lead from each arc of the list to the next, and from the last to the first.",
    ),
    16: (
        "missed",
        "an arc that must be driven is not in a judged list",
        "Lead the drive over every arc that must be driven.",
    ),
    17: (
        "stray pair",
        "more than 256 pairs, or one of what is no vertex",
        "Ask for at most 256 pairs of vertices of this plan at a time.",
    ),
    18: (
        "bad marks",
        "a car's marks are not as many as the arcs, one is neither 0 nor 1, or a closed arc is marked",
        "Give each car one mark for every arc, and none to a closed one.",
    ),
    19: (
        "bad window",
        "a window, the number of windows or the departure is beyond its limits",
        "Use at most 128 windows, each of an arc of this plan, a weekday from 0 to 6 and minutes that ascend, the last"
        " of them 1,440 or less; and depart before minute 1,440.",
    ),
    20: (
        "must shut",
        "an arc that must be driven is shut at departure",
        "Depart at another time, or take the arc's must away for this drive.",
    ),
    21: (
        "no mark",
        "a mark's number is above 3, or the mark was never set",
        "Use marks 0 to 3, and set a mark before returning to it.",
    ),
    22: (
        "full",
        "eight districts are unfinished",
        "Let turns pass until a district has finished, then enter again.",
    ),
    23: (
        "rounds",
        "the rounds are 0 or above 1,000",
        "Ask for 1 to 1,000 rounds.",
    ),
}
