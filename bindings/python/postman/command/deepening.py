"""As deep as a time allows: budgets that grow tenfold, then rounds that grow eightfold, while the next call is expected to fit."""

from __future__ import annotations

from collections.abc import Callable
from time import process_time
from typing import TypeVar

from ..answer import Answer
from ..limits import HIGHEST_BUDGET, MOST_ROUNDS

SECONDS = 0.5
FIRST_BUDGET = 10_000
GROWTH = 10
MORE_ROUNDS = 8

Answered = TypeVar("Answered")


def no_gap(answer: Answer) -> bool:
    """Whether nothing is left to find."""
    return answer.cost == answer.floor


def deepest(
    ask: Callable[[int], Answered],
    done: Callable[[Answered], bool],
    seconds: float = SECONDS,
    clock: Callable[[], float] = process_time,
) -> Answered:
    """What `ask` answers for the largest budget that the time allows, or for the first after which it is `done`.

    A larger budget's drive is no dearer, so the last answer is the best one. A call with ten times the budget takes
    at most about ten times as long. What counts is the processor's time, so that a list has the same drive whatever
    else the machine does.
    """
    start = clock()
    budget = FIRST_BUDGET
    while True:
        before = clock()
        answer = ask(budget)
        now = clock()
        if done(answer) or budget == HIGHEST_BUDGET or now - start + GROWTH * (now - before) > seconds:
            return answer
        budget = min(GROWTH * budget, HIGHEST_BUDGET)


def in_rounds(
    answer: Answer,
    ask: Callable[[int], Answer],
    started: float,
    seconds: float = SECONDS,
    clock: Callable[[], float] = process_time,
) -> Answer | None:
    """What `ask` answers for the most rounds that the time from `started` on allows, after an answer at the highest
    budget that leaves a gap; or None where not even the first rounds fit.

    More rounds are never worse, so the last answer is the best one. So many times the rounds take at most about as
    many times as long.
    """
    found = None
    rounds = 1
    taken = clock() - started
    while not no_gap(found or answer) and rounds < MOST_ROUNDS:
        if clock() - started + MORE_ROUNDS * taken > seconds:
            return found
        rounds = min(MORE_ROUNDS * rounds, MOST_ROUNDS)
        before = clock()
        found = ask(rounds)
        taken = clock() - before
    return found
