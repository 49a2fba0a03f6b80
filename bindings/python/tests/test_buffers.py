"""Lent memory: nothing is written beside it, nor where a call says that it leaves it."""

import unittest
from ctypes import c_int64, c_uint8, c_uint16, c_uint32, c_uint64, sizeof

from repository import CASE_A, example, kept_plans

from postman import Car, Districts, OpenPlan, Plan, Refusal, Standing, _lent, cars, plan_call, short_call, two_cars
from postman._library import library
from postman.limits import (
    ANSWER_WORDS,
    DISTRICTS_BYTES,
    FINISHED,
    LONGEST_FILE,
    MOST_ARCS,
    MULTIPLIERS,
    NO_DISTRICT,
    OPEN_BYTES,
    RECORD_BYTES,
    SHEET_PLACES,
)

TOWN = example("large_town.plan")
CANARY = 0xA5
GUARD = 4096


class Guarded:
    """Memory that is lent, with canaries in it and on both sides of it."""

    def __init__(self, kind: type, count: int) -> None:
        self.bytes = bytearray([CANARY]) * (GUARD + count * sizeof(kind) + GUARD)
        self.lent = (kind * count).from_buffer(self.bytes, GUARD)
        self.size = sizeof(kind)

    def written(self) -> int:
        """How many elements from the start may have been written; a canary on either side that is not is an error."""
        if set(self.bytes[:GUARD]) | set(self.bytes[-GUARD:]) != {CANARY}:
            raise AssertionError("something was written beside lent memory")
        inside = self.bytes[GUARD:-GUARD].rstrip(bytes([CANARY]))
        return -(-len(inside) // self.size)


class GuardedDrive(_lent.Lent):
    """What a call is lent for one drive, guarded."""

    def __init__(self, places: int = SHEET_PLACES) -> None:
        self.sheet = Guarded(c_uint16, places)
        self.answer_words = Guarded(c_uint64, ANSWER_WORDS)
        self.guarded_multipliers = Guarded(c_int64, MULTIPLIERS)
        self.arguments = (
            *(self.sheet.lent, places),
            *(self.answer_words.lent, ANSWER_WORDS),
            *(self.guarded_multipliers.lent, MULTIPLIERS),
        )
        self.places = memoryview(self.sheet.lent).cast("B").cast("H")
        self.words = memoryview(self.answer_words.lent).cast("B")
        self.multipliers = memoryview(self.guarded_multipliers.lent).cast("B")

    def written(self) -> tuple[int, int, int]:
        return self.sheet.written(), self.answer_words.written(), self.guarded_multipliers.written()


class Canaries(unittest.TestCase):
    def test_a_canary_that_is_overwritten_is_seen(self) -> None:
        for at in (0, GUARD - 1, -1, -GUARD):
            memory = Guarded(c_uint16, 3)
            memory.bytes[at] ^= 1
            with self.assertRaises(AssertionError):
                memory.written()
        memory = Guarded(c_uint16, 3)
        self.assertEqual(memory.written(), 0)
        memory.lent[1] = 7
        self.assertEqual(memory.written(), 2)

    def test_drives_of_the_package(self) -> None:
        """The package's own calls, on guarded memory."""
        for path in kept_plans():
            file = path.read_bytes()
            m = len(Plan.read(file).arcs)
            marks = [arc.standing == Standing.MUST for arc in Plan.read(file).arcs]
            districts, plan = Districts(), OpenPlan.open(file)
            if path.name != "cut_off.plan":
                districts.enter(file, 10)
            for call in (
                lambda: plan_call(file, 10),
                lambda: short_call(file) if m < 100 else plan_call(file, 100),
                lambda: plan.ask(10),
                lambda: getattr(districts.turn(), "answer", None),
            ):
                lent = GuardedDrive()
                _lent.give_back(lent)
                try:
                    answer = call()
                except Refusal:
                    answer = None
                self.assertIs(_lent._free[-1], lent)
                if answer is None:
                    self.assertEqual(lent.written(), (0, 0, 0), path)
                else:
                    self.assertEqual(lent.written(), (answer.places, ANSWER_WORDS, MULTIPLIERS), path)
            lents = GuardedDrive(), GuardedDrive()
            for lent in lents:
                _lent.give_back(lent)
            first, second = two_cars(file, Car(marks, 0), Car(marks, 10))
            self.assertEqual(first, Refusal(9))
            refused, answered = reversed(lents)
            self.assertEqual(refused.written(), (0, 0, 0))
            if path.name != "cut_off.plan":
                self.assertEqual(answered.written(), (second.places, ANSWER_WORDS, MULTIPLIERS))

    def tearDown(self) -> None:
        _lent._free.clear()

    def test_short_sheets_are_not_written(self) -> None:
        lent = GuardedDrive(SHEET_PLACES - 1)
        self.assertEqual(library.postman_plan_call(TOWN, len(TOWN), 10, *lent.arguments), -Refusal.SHORT_SHEET)
        self.assertEqual(library.postman_short_call(TOWN, len(TOWN), *lent.arguments), -Refusal.SHORT_SHEET)
        marks = bytes(arc.standing == Standing.MUST for arc in Plan.read(TOWN).arcs)
        car = marks, len(marks), 10, *lent.arguments
        number = library.postman_two_cars(TOWN, len(TOWN), *car, *car)
        self.assertEqual(divmod(number, 256), (Refusal.SHORT_SHEET, Refusal.SHORT_SHEET))
        machine = Districts()
        self.assertEqual(library.postman_turn(machine._machine, DISTRICTS_BYTES, *lent.arguments), NO_DISTRICT)
        machine.enter(TOWN, 10)
        self.assertEqual(library.postman_turn(machine._machine, DISTRICTS_BYTES, *lent.arguments), -Refusal.SHORT_SHEET)
        self.assertEqual(lent.written(), (0, 0, 0))

    def test_records_and_files(self) -> None:
        m = len(Plan.read(TOWN).arcs)
        for room, number in ((m, None), (m - 1, -Refusal.SHORT_SHEET), (MOST_ARCS + 9, None)):
            records = Guarded(c_uint8, room * RECORD_BYTES)
            told = library.postman_read_plan(TOWN, len(TOWN), records.lent, room * RECORD_BYTES)
            self.assertEqual(told if told < 0 else None, number)
            self.assertEqual(records.written(), 0 if number else m * RECORD_BYTES)
        records = Guarded(c_uint8, m * RECORD_BYTES)
        library.postman_read_plan(TOWN, len(TOWN), records.lent, m * RECORD_BYTES)
        arcs = bytes(records.lent)
        for room in (len(TOWN) - 1, len(TOWN), LONGEST_FILE):
            file = Guarded(c_uint8, room)
            told = library.postman_write_plan(1, 64, arcs, len(arcs), file.lent, room)
            self.assertEqual(told, len(TOWN) if room >= len(TOWN) else -Refusal.SHORT_SHEET)
            self.assertEqual(bytes(file.lent)[: file.written()], TOWN if told > 0 else b"")

    def test_states(self) -> None:
        for room, fits in ((OPEN_BYTES - 1, False), (OPEN_BYTES, True), (OPEN_BYTES + 64, True)):
            state = Guarded(c_uint8, room)
            for told in (
                library.postman_open(TOWN, len(TOWN), state.lent, room),
                library.postman_mark(state.lent, room, 3),
                library.postman_change(state.lent, room, 0, 1, 0, Standing.CLOSED),
                library.postman_return(state.lent, room, 3),
            ):
                self.assertEqual(told, 0 if fits else -Refusal.SHORT_SHEET)
            self.assertEqual(state.written(), OPEN_BYTES if fits else 0)

    def test_machines(self) -> None:
        for room, fits in ((DISTRICTS_BYTES - 1, False), (DISTRICTS_BYTES, True), (DISTRICTS_BYTES + 64, True)):
            machine, lent = Guarded(c_uint8, room), GuardedDrive()
            told = [
                library.postman_districts_start(machine.lent, room),
                library.postman_enter(machine.lent, room, TOWN, len(TOWN), 1_001),
                library.postman_turn(machine.lent, room, *lent.arguments),
            ]
            # The first of two turns: sheet and multipliers are left.
            self.assertEqual((lent.sheet.written(), lent.guarded_multipliers.written()), (0, 0))
            told.append(library.postman_turn(machine.lent, room, *lent.arguments))
            self.assertEqual(told, [0, 0, 0, FINISHED] if fits else [-Refusal.SHORT_SHEET] * 4)
            self.assertEqual(machine.written(), DISTRICTS_BYTES if fits else 0)

    def test_distances(self) -> None:
        pairs = (c_uint16 * 5)(*range(5))
        for room, written in ((4, 0), (5, 5), (64, 5)):
            page = Guarded(c_uint32, room)
            told = library.postman_distances(TOWN, len(TOWN), pairs, 5, page.lent, room)
            self.assertEqual((told, page.written()), (1 if written else -Refusal.SHORT_SHEET, written))

    def test_lists_that_are_read_are_left(self) -> None:
        drive = Guarded(c_uint16, 2)
        drive.lent[:] = [0, 1]
        before = bytes(drive.bytes)
        self.assertEqual(library.postman_judge(CASE_A, len(CASE_A), drive.lent, 2), 8)
        self.assertEqual(bytes(drive.bytes), before)

    def test_lent_memory_is_used_again(self) -> None:
        _lent._free.clear()
        for _ in range(3):
            plan_call(CASE_A, 1)
            with self.assertRaises(Refusal):
                plan_call(CASE_A, 0)
        self.assertEqual(len(_lent._free), 1)
        cars.two_cars(CASE_A, Car((1, 0), 1), Car((1, 0), 1))
        self.assertEqual(len(_lent._free), 2)


if __name__ == "__main__":
    unittest.main()
