"""An open plan and its marks."""

import copy
import pickle
import unittest

from repository import CASE_A, example

from postman import Arc, Departure, OpenPlan, Plan, Refusal, Standing, Window, limits, plan_call, plan_call_at

MUST, MAY, CLOSED = Standing.MUST, Standing.MAY, Standing.CLOSED
TWO_WAYS = Plan(2, [Arc(0, 1, MUST, 5), Arc(1, 0, MAY, 3), Arc(1, 0, MAY, 9)])


class OpenPlans(unittest.TestCase):
    def setUp(self) -> None:
        self.plan = OpenPlan.open(TWO_WAYS)

    def refused(self, number: int, call, *arguments) -> None:
        before = self.plan.to_bytes()
        with self.assertRaises(Refusal) as caught:
            call(*arguments)
        self.assertEqual(caught.exception.number, number, arguments)
        self.assertEqual(self.plan.to_bytes(), before)

    def test_a_change_and_back(self) -> None:
        before = self.plan.ask(10)
        self.plan.mark(0)
        self.plan.change(1, 3, 0, CLOSED)
        self.assertEqual((self.plan.ask(10).drive, self.plan.plan.arcs[1].standing), ((0, 2), CLOSED))
        self.plan.mark(3)
        self.plan.return_to(0)
        self.assertEqual((self.plan.ask(10), self.plan.file), (before, TWO_WAYS.write()))
        self.plan.return_to(3)
        self.assertEqual(self.plan.ask(10).drive, (0, 2))

    def test_asking_is_the_plan_call_for_the_file(self) -> None:
        file = example("town.plan")
        plan = OpenPlan.open(file)
        market, saturday = [Window(k, 5, 360, 840) for k in range(0, 60, 7)], Departure(5, 400)
        for arc in range(len(plan.plan.arcs)):
            try:
                plan.change(arc, arc + 7, None, MAY if arc % 2 else MUST)
            except Refusal as refusal:
                self.assertEqual(refusal.number, Refusal.REPEATED)
            for windows, departure in (((), Departure(0, 0)), (market, saturday)):
                try:
                    told = plan.ask(20, windows, departure)
                except Refusal as refusal:
                    with self.assertRaises(Refusal) as caught:
                        plan_call_at(plan.file, 20, windows, departure)
                    self.assertEqual(caught.exception, refusal)
                else:
                    self.assertEqual(told, plan_call_at(plan.file, 20, windows, departure))

    def test_changes_that_are_refused(self) -> None:
        for arc in (3, 255, -1, 2**32, 2**32 + 1):
            self.refused(14, self.plan.change, arc, 1, 0, MAY)
        self.refused(6, self.plan.change, 0, 5, 6, MUST)
        self.refused(6, self.plan.change, 1, 5, 1, MAY)
        self.refused(13, self.plan.change, 2, 3, 0, MAY)
        for wrong in ((0, 65536, None, MUST), (0, -1, None, MUST), (0, 5, 65536, MUST), (0, 5, None, 3)):
            with self.assertRaises(ValueError):
                self.plan.change(*wrong)

    def test_a_checking_cost_that_is_not_given(self) -> None:
        self.plan.change(1, 4, None, MUST)
        self.plan.change(0, 4, None, MAY)
        self.assertEqual([arc.checking for arc in self.plan.plan.arcs], [0, 4, 0])

    def test_marks_that_there_are_not(self) -> None:
        for mark in (4, -1, 2**32, 2**32 + 1):
            self.refused(21, self.plan.mark, mark)
            self.refused(21, self.plan.return_to, mark)
        for mark in range(4):
            self.refused(21, self.plan.return_to, mark)

    def test_asking_is_refused_as_the_plan_call_is(self) -> None:
        self.refused(9, self.plan.ask, 0)
        self.refused(19, self.plan.ask, 1, (), Departure(7, 0))
        self.refused(20, self.plan.ask, 1, [Window(0, 0, 0, 1)], Departure(0, 0))
        self.plan.change(0, 5, 0, MAY)
        self.refused(10, self.plan.ask, 1)

    def test_opening_is_refused_as_reading_is(self) -> None:
        for file, number in ((CASE_A[:9], 1), (b"\x30\x40\x20", 2), (CASE_A + b"\0", 4)):
            self.refused(number, OpenPlan.open, file)

    def test_bytes_and_back(self) -> None:
        self.plan.mark(2)
        self.plan.change(1, 8, 0, MAY)
        kept = self.plan.to_bytes()
        for other in (
            OpenPlan.from_bytes(kept),
            OpenPlan.from_bytes(bytearray(kept)),
            copy.copy(self.plan),
            copy.deepcopy(self.plan),
            pickle.loads(pickle.dumps(self.plan)),
        ):
            self.assertEqual(other, self.plan)
            other.return_to(2)
            self.assertNotEqual(other, self.plan)
            self.assertEqual(other.plan, TWO_WAYS)
        self.assertEqual(self.plan.to_bytes(), kept)
        for wrong in (b"", kept[:-1], kept + b"\0"):
            with self.assertRaises(ValueError):
                OpenPlan.from_bytes(wrong)
        self.refused(1, OpenPlan.from_bytes, bytes(limits.OPEN_BYTES))

    def test_kept_marks_have_to_read(self) -> None:
        """A return would bring back what does not."""
        self.plan.mark(0)
        kept = bytearray(self.plan.to_bytes())
        at = 2 + limits.LONGEST_FILE
        kept[at + 2] = 0x30
        self.refused(2, OpenPlan.from_bytes, kept)
        kept[at : at + 2] = bytes(2)
        self.assertEqual(OpenPlan.from_bytes(kept).plan, TWO_WAYS)

    def test_a_length_above_the_longest_file(self) -> None:
        longest = Plan(64, [Arc(k % 64, (k + 1) % 64, MUST, k, k + 1) for k in range(256)], edition=2)
        kept = bytearray(OpenPlan.open(longest).to_bytes())
        kept[:2] = b"\xff\xff"
        plan = OpenPlan.from_bytes(kept)
        self.assertEqual((plan.file, plan.plan), (longest.write(), longest))
        self.assertEqual(plan.ask(1), plan_call(longest, 1))


if __name__ == "__main__":
    unittest.main()
