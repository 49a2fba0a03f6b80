"""The work on one plan: its file is read, the library called, and a refusal said in the list's own words."""

from __future__ import annotations

from math import inf
from time import perf_counter
from typing import NamedTuple

from ..calls import plan_call
from ..refusal import Refusal
from ..streets import kind_of, open_list
from ..streets.errors import ListError
from ..streets.explain import explain
from ..streets.table import MOST_BYTES
from .result import Numbers, Result, Undone


class Called(NamedTuple):
    """What a plan call came to: numbers or a refusal's number, and how long it took."""

    numbers: Numbers | None
    refusal: int | None
    seconds: float | None


def call(file: bytes, budget: int) -> Called:
    """The plan call. This is all that a worker of a cluster does."""
    begun = perf_counter()
    try:
        answer = plan_call(file, budget)
    except Refusal as refusal:
        return Called(None, refusal.number, round(perf_counter() - begun, 6))
    seconds = round(perf_counter() - begun, 6)
    gap = None if answer.gap == inf else round(answer.gap, 6)
    return Called(
        Numbers(answer.cost, answer.floor, gap, answer.trees, answer.whole, answer.parts), None, seconds
    )


def read(path: str, budget: int) -> bytes | Result | Undone:
    """A plan's file as the library takes it, made of a street list or a map where it is one; or why there is none."""
    try:
        with open(path, "rb", buffering=0) as file:
            # What is longer is no plan, and refused for what stands here.
            data = file.read(MOST_BYTES)
    except OSError as error:
        return Undone(path, f"cannot be read: {error.strerror or error}")
    if kind_of(path, data) == "plan":
        return data
    try:
        return open_list(path, data=data).file
    except Refusal as refusal:
        return finished(path, budget, Called(None, refusal.number, None))
    except ListError as error:
        return Result(path, budget, None, None, told(error), None)


def finished(path: str, budget: int, called: Called) -> Result:
    """The result that a call came to."""
    error = None if called.refusal is None else meaning(path, Refusal(called.refusal))
    return Result(path, budget, called.numbers, called.refusal, error, called.seconds)


def work(path: str, budget: int) -> Result | Undone:
    """All of the work on one plan."""
    file = read(path, budget)
    return finished(path, budget, call(file, budget)) if isinstance(file, bytes) else file


def meaning(path: str, refusal: Refusal) -> str:
    """What a refusal means in the list. Where the list itself cannot be read it is said in general."""
    try:
        return explain(open_list(path), refusal)
    except ListError:
        return f"{refusal.sentence}. {refusal.advice}"


def told(error: ListError) -> str:
    """An error without the file's name, which the result has already."""
    return str(error).removeprefix(error.file).removeprefix(":").lstrip()
