"""Memory that is lent to the library, and numbers made to fit it.

A number that has no room in the C type is lent as the highest one. That is beyond every limit too, so that the library
refuses it, in its own order; C would drop the high bits and take it for another number.
"""

from __future__ import annotations

import struct
from collections.abc import Callable, Iterable
from ctypes import Array, c_int64, c_uint16, c_uint64
from operator import index

from .answer import Answer
from .limits import ANSWER_WORDS, MULTIPLIERS, SHEET_PLACES
from .refusal import Refusal

_BYTE = 2**8 - 1
_SHORT = 2**16 - 1
_WORD = 2**32 - 1
_LONG = 2**64 - 1


def byte(number: int) -> int:
    """A number of 8 bits, or the highest of these."""
    number = index(number)
    return number if 0 <= number <= _BYTE else _BYTE


def short(number: int) -> int:
    """A number of 16 bits, or the highest of these."""
    number = index(number)
    return number if 0 <= number <= _SHORT else _SHORT


def word(number: int) -> int:
    """A number of 32 bits, or the highest of these."""
    number = index(number)
    return number if 0 <= number <= _WORD else _WORD


def long(number: int) -> int:
    """A number of 64 bits, or the highest of these."""
    number = index(number)
    return number if 0 <= number <= _LONG else _LONG


def shorts(numbers: Iterable[int]) -> Array[c_uint16]:
    """Numbers of 16 bits, as they are lent."""
    numbers = [short(number) for number in numbers]
    return (c_uint16 * len(numbers))(*numbers)


def unless_refused(number: int) -> int:
    """What a call answers, 0 or more, unless it is minus a refusal's number."""
    if number < 0:
        raise Refusal(-number)
    return number


_words = struct.Struct(f"={ANSWER_WORDS}Q").unpack
_multipliers = struct.Struct(f"={MULTIPLIERS}q").unpack


class Lent:
    """What a call is lent for one drive: a sheet, the words of an answer, and multipliers."""

    __slots__ = ("arguments", "places", "words", "multipliers")

    arguments: tuple[Array[c_uint16], int, Array[c_uint64], int, Array[c_int64], int]
    """The three slices as they are lent."""

    def __init__(self) -> None:
        sheet = (c_uint16 * SHEET_PLACES)()
        words = (c_uint64 * ANSWER_WORDS)()
        multipliers = (c_int64 * MULTIPLIERS)()
        self.arguments = (sheet, SHEET_PLACES, words, ANSWER_WORDS, multipliers, MULTIPLIERS)
        self.places = memoryview(sheet).cast("B").cast("H")
        self.words = memoryview(words).cast("B")
        self.multipliers = memoryview(multipliers).cast("B")

    def answer(self) -> Answer:
        """What a call that was not refused put into it. Only the places of the drive are copied."""
        places, cost, floor, trees, whole, parts = _words(self.words)
        drive = tuple(self.places[:places].tolist())
        return Answer(cost, floor, trees, whole == 1, parts, drive, _multipliers(self.multipliers))


# Lent memory that no call uses just now. Each call takes one out and puts it back, so that threads, and a call from
# within a signal's handler, never share one; there are as many as calls were ever made at once.
_free: list[Lent] = []


def borrow() -> Lent:
    """Lent memory that is this call's alone until it is given back."""
    try:
        return _free.pop()
    except IndexError:
        return Lent()


give_back: Callable[[Lent], None] = _free.append
"""Lets another call have it."""
