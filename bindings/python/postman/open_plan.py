"""A plan that is open for changes, with marks to come back to."""

from __future__ import annotations

from collections.abc import Iterable
from ctypes import c_uint8
from threading import Lock
from typing import Any

from ._lent import borrow, give_back, long, unless_refused, word
from ._library import library
from .answer import Answer
from .limits import LONGEST_FILE, MARKS, OPEN_BYTES
from .plan import File, Plan, Standing, file_bytes, price
from .windows import Departure, Window, numbers_of

_MIDNIGHT = Departure(0, 0)


class OpenPlan:
    """A plan that is open for changes, and four marks, 0 to 3, that hold it as it was. A refused call alters nothing.

    >>> plan = OpenPlan.open(bytes.fromhex("10402001400141000003"))
    >>> plan.mark(0)
    >>> plan.change(1, cost=4, checking=0, standing=Standing.MAY)
    >>> plan.ask(10_000).cost
    9
    >>> plan.return_to(0)
    >>> plan.ask(10_000).cost
    8

    Threads may use one open plan: its calls follow one another. It can be copied and pickled.
    """

    __slots__ = ("_state", "_lock")

    def __init__(self, file: File) -> None:
        """Opens a plan file, with no mark set. Refuses with 1 to 7 and 13."""
        file = file_bytes(file)
        self._state = (c_uint8 * OPEN_BYTES)()
        self._lock = Lock()
        unless_refused(library.postman_open(file, len(file), self._state, OPEN_BYTES))

    @classmethod
    def open(cls, file: File) -> OpenPlan:
        """Opens a plan file, with no mark set. Refuses with 1 to 7 and 13."""
        return cls(file)

    def change(self, arc: int, cost: int, checking: int | None, standing: Standing) -> None:
        """Sets an arc's cost, checking cost and standing; a closed arc may be changed too.

        A checking cost of None is the cost of a must arc, and 0 of any other. Refuses with 14 for an arc that the plan
        does not have, else with 6 or 13 if the changed plan could not be written in its edition.
        """
        standing = Standing(standing)
        cost = price("cost", cost)
        if checking is None:
            checking = cost if standing == Standing.MUST else 0
        numbers = word(arc), cost, price("checking cost", checking), standing
        with self._lock:
            unless_refused(library.postman_change(self._state, OPEN_BYTES, *numbers))

    def mark(self, mark: int) -> None:
        """Sets a mark, 0 to 3: it holds the plan as it is now, in place of what it held. Refuses with 21 above 3."""
        with self._lock:
            unless_refused(library.postman_mark(self._state, OPEN_BYTES, word(mark)))

    def return_to(self, mark: int) -> None:
        """Brings back the plan that a mark holds, and keeps all marks. Refuses with 21 where the mark was never set."""
        with self._lock:
            unless_refused(library.postman_return(self._state, OPEN_BYTES, word(mark)))

    def ask(self, budget: int, windows: Iterable[Window] = (), departure: Departure = _MIDNIGHT) -> Answer:
        """What `plan_call_at` answers for the plan as it is now. Refuses with 9 to 12, 19 and 20."""
        numbers = numbers_of(windows)
        at = word(departure.weekday), word(departure.minute)
        lent = borrow()
        try:
            with self._lock:
                number = library.postman_ask(
                    self._state, OPEN_BYTES, long(budget), numbers, len(numbers), *at, *lent.arguments
                )
            unless_refused(number)
            return lent.answer()
        finally:
            give_back(lent)

    @property
    def file(self) -> bytes:
        """The file of the plan as it is now."""
        return _file_in(self.to_bytes(), 0)

    @property
    def plan(self) -> Plan:
        """The plan as it is now."""
        return Plan.read(self.file)

    def to_bytes(self) -> bytes:
        """The open plan and its marks as bytes, to be kept; include/postman.h says what they are."""
        with self._lock:
            return bytes(self._state)

    @classmethod
    def from_bytes(cls, state: bytes | bytearray | memoryview) -> OpenPlan:
        """The open plan that `to_bytes` gave.

        The files of the plan and of all marks that are set have to read: refuses with 1 to 7 and 13.
        """
        state = bytes(memoryview(state))
        if len(state) != OPEN_BYTES:
            raise ValueError(f"an open plan has {OPEN_BYTES} bytes, and these are {len(state)}")
        Plan.read(_file_in(state, 0))
        for mark in range(MARKS):
            if held := _file_in(state, 1 + mark):
                Plan.read(held)
        open_plan = cls.__new__(cls)
        open_plan._state = (c_uint8 * OPEN_BYTES).from_buffer_copy(state)
        open_plan._lock = Lock()
        return open_plan

    def __reduce__(self) -> tuple[Any, ...]:
        return OpenPlan.from_bytes, (self.to_bytes(),)

    def __eq__(self, other: object) -> bool:
        return isinstance(other, OpenPlan) and other.to_bytes() == self.to_bytes()

    __hash__ = None  # type: ignore[assignment]


def _file_in(state: bytes, i: int) -> bytes:
    """The file number i of a state: 0 is that of the plan, and those of the marks follow."""
    at = i * (2 + LONGEST_FILE)
    length = min(int.from_bytes(state[at : at + 2], "big"), LONGEST_FILE)
    return state[at + 2 : at + 2 + length]
