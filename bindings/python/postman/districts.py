"""Eight districts in turn."""

from __future__ import annotations

from collections.abc import Iterator
from ctypes import c_uint8
from dataclasses import dataclass
from threading import Lock
from typing import Any

from ._lent import borrow, give_back, long, unless_refused
from ._library import library
from .answer import Answer
from .limits import COST, DISTRICTS_BYTES, FINISHED, NO_DISTRICT, TREES
from .plan import File, file_bytes


@dataclass(frozen=True, slots=True)
class Turn:
    """A district's turn."""

    place: int
    """The district's place, 0 to 7."""
    trees: int
    """The trees so far."""
    cost: int
    """The least cost of these."""
    answer: Answer | None
    """In its last turn what `plan_call` answers for its file and budget, however many turns it took; else None."""

    @property
    def finished(self) -> bool:
        """Whether this was the district's last turn: it has left, and its place is free."""
        return self.answer is not None


class Districts:
    """A machine that lays drives for up to eight districts in turn.

    Each enters at the back of the line; a turn goes to the front one, which tries 1,000 trees, or those that are left
    of its budget or of its plan. It is an iterator of turns, which ends when no district is inside; more may enter at
    any time, and then it goes on.

    >>> districts = Districts()
    >>> districts.enter(bytes.fromhex("10402001400141000003"), budget=10_000)
    0
    >>> [(turn.place, turn.finished, turn.cost) for turn in districts]
    [(0, True, 8)]

    Threads may use one machine: its calls follow one another. It can be copied and pickled.
    """

    __slots__ = ("_machine", "_lock")

    def __init__(self) -> None:
        """A machine with no district inside."""
        self._machine = (c_uint8 * DISTRICTS_BYTES)()
        self._lock = Lock()
        unless_refused(library.postman_districts_start(self._machine, DISTRICTS_BYTES))

    def enter(self, file: File, budget: int) -> int:
        """A district enters with its plan file and a budget: its place, the lowest of 0 to 7 that is free.

        Refuses with 1 to 7 and 9 to 13 as `plan_call` does, and with 22 where eight districts are unfinished; then
        nothing moves.
        """
        file = file_bytes(file)
        with self._lock:
            return unless_refused(
                library.postman_enter(self._machine, DISTRICTS_BYTES, file, len(file), long(budget))
            )

    def turn(self) -> Turn | None:
        """A turn of the front district, or None with no district inside."""
        lent = borrow()
        try:
            with self._lock:
                number = library.postman_turn(self._machine, DISTRICTS_BYTES, *lent.arguments)
            if unless_refused(number) == NO_DISTRICT:
                return None
            if number >= FINISHED:
                answer = lent.answer()
                return Turn(number - FINISHED, answer.trees, answer.cost, answer)
            words = lent.arguments[2]
            return Turn(number, words[TREES], words[COST], None)
        finally:
            give_back(lent)

    def __iter__(self) -> Iterator[Turn]:
        return self

    def __next__(self) -> Turn:
        turn = self.turn()
        if turn is None:
            raise StopIteration
        return turn

    @property
    def waiting(self) -> int:
        """How many districts wait for a turn."""
        return int.from_bytes(self.to_bytes()[-8:], "big")

    def to_bytes(self) -> bytes:
        """The machine as bytes, to be kept; include/postman.h says what they are."""
        with self._lock:
            return bytes(self._machine)

    @classmethod
    def from_bytes(cls, machine: bytes | bytearray | memoryview) -> Districts:
        """The machine that `to_bytes` gave. Any bytes of that length are one, and no call fails on them."""
        machine = bytes(memoryview(machine))
        if len(machine) != DISTRICTS_BYTES:
            raise ValueError(f"a machine of districts has {DISTRICTS_BYTES} bytes, and these are {len(machine)}")
        districts = cls.__new__(cls)
        districts._machine = (c_uint8 * DISTRICTS_BYTES).from_buffer_copy(machine)
        districts._lock = Lock()
        return districts

    def __reduce__(self) -> tuple[Any, ...]:
        return Districts.from_bytes, (self.to_bytes(),)

    def __eq__(self, other: object) -> bool:
        return isinstance(other, Districts) and other.to_bytes() == self.to_bytes()

    __hash__ = None  # type: ignore[assignment]
