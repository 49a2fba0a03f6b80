"""Eight districts in turn."""

import copy
import pickle
import unittest
from collections.abc import Iterator

from repository import CASE_A, example

from postman import Districts, Refusal, limits, plan_call

TOWN = example("large_town.plan")


class Lines(unittest.TestCase):
    def test_each_is_answered_as_one_plan_call(self) -> None:
        budgets = [2_500, 1, 1_000, 1_001, 3_000, 999, 2_000, 1]
        districts = Districts()
        self.assertIsNone(districts.turn())
        self.assertEqual([districts.enter(TOWN, budget) for budget in budgets], list(range(8)))
        self.assertEqual(districts.waiting, 8)
        turns = [0] * 8
        for turn in districts:
            turns[turn.place] += 1
            if turn.finished:
                self.assertEqual(turn.answer, plan_call(TOWN, budgets[turn.place]))
                self.assertEqual((turn.trees, turn.cost), (turn.answer.trees, turn.answer.cost))
            else:
                self.assertIsNone(turn.answer)
                self.assertEqual(turn.trees, turns[turn.place] * limits.TURN_TREES)
                self.assertEqual(turn.cost, plan_call(TOWN, turn.trees).cost)
        self.assertEqual(turns, [-(-budget // limits.TURN_TREES) for budget in budgets])
        self.assertEqual((list(districts), districts.waiting), ([], 0))

    def test_it_is_an_iterator_that_goes_on_when_a_district_enters(self) -> None:
        districts = Districts()
        self.assertIsInstance(districts, Iterator)
        self.assertRaises(StopIteration, next, districts)
        districts.enter(CASE_A, 1)
        self.assertEqual(next(districts).answer, plan_call(CASE_A, 1))
        self.assertRaises(StopIteration, next, districts)

    def test_a_district_enters_while_others_wait(self) -> None:
        districts = Districts()
        districts.enter(TOWN, 2_001)
        districts.enter(CASE_A, 1)
        places = []
        for turn in districts:
            places.append((turn.place, turn.finished))
            if len(places) == 2:
                self.assertEqual(districts.enter(CASE_A, 5), 1)
        self.assertEqual(places, [(0, False), (1, True), (0, False), (1, True), (0, True)])

    def test_refused_entries_move_nothing(self) -> None:
        districts = Districts()
        for _ in range(8):
            districts.enter(TOWN, 1)
        before = districts.to_bytes()
        for file, budget, number in ((TOWN, 1, 22), (TOWN, 0, 9), (TOWN, 2**64 + 1, 9), (TOWN[:9], 1, 1)):
            with self.assertRaises(Refusal) as caught:
                districts.enter(file, budget)
            self.assertEqual(caught.exception.number, number)
        self.assertEqual(districts.to_bytes(), before)

    def test_bytes_and_back(self) -> None:
        districts = Districts()
        districts.enter(TOWN, 2_500)
        districts.turn()
        for other in (
            Districts.from_bytes(districts.to_bytes()),
            copy.copy(districts),
            pickle.loads(pickle.dumps(districts)),
        ):
            self.assertEqual(other, districts)
            self.assertEqual([turn.answer for turn in other], [None, plan_call(TOWN, 2_500)])
        self.assertEqual(districts.waiting, 1)
        for wrong in (b"", bytes(limits.DISTRICTS_BYTES - 1), bytes(limits.DISTRICTS_BYTES + 1)):
            with self.assertRaises(ValueError):
                Districts.from_bytes(wrong)

    def test_no_bytes_are_no_machine(self) -> None:
        """Whatever they are, calls end and say something."""
        for byte in (0, 1, 0x10, 0x7F, 0xFF):
            districts = Districts.from_bytes(bytes([byte]) * limits.DISTRICTS_BYTES)
            districts.turn()
            try:
                districts.enter(CASE_A, 1)
            except Refusal as refusal:
                self.assertEqual(refusal.number, Refusal.FULL)


if __name__ == "__main__":
    unittest.main()
