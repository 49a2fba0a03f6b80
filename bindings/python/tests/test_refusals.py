"""The refusals: each can be met, and says what it is."""

import pickle
import unittest

from repository import CASE_A, example

from postman import (
    Arc,
    Car,
    Departure,
    Districts,
    OpenPlan,
    Plan,
    Refusal,
    Standing,
    Window,
    deep_call,
    distances,
    judge,
    plan_call,
    plan_call_at,
    two_cars,
)
from postman._library import library

MUST, MAY = Standing.MUST, Standing.MAY


def full() -> None:
    districts = Districts()
    for _ in range(9):
        districts.enter(CASE_A, 1)


def short_sheet() -> None:
    """The package lends enough, so that 8 is met below it only."""
    raise Refusal(-library.postman_open(CASE_A, len(CASE_A), Districts()._machine, 7384))


def bad_marks() -> None:
    raise two_cars(CASE_A, Car([], 1), Car([], 1))[0]


MET = {
    1: lambda: Plan.read(CASE_A[:9]),
    2: lambda: Plan.read(b"\x30\x40\x20"),
    3: lambda: Plan(65, [Arc(0, 0, MAY, 1)]).write(),
    4: lambda: Plan.read(CASE_A + b"\0"),
    5: lambda: Plan(1, [Arc(0, 1, MAY, 1)]).write(),
    6: lambda: Plan(1, [Arc(0, 0, MUST, 0)]).write(),
    7: lambda: Plan.read(bytes.fromhex("10402001c00141000003")),
    8: short_sheet,
    9: lambda: plan_call(CASE_A, 0),
    10: lambda: plan_call(Plan(1, [Arc(0, 0, MAY, 1)]), 1),
    11: lambda: plan_call(Plan(9, [Arc(v, v, MUST, 1) for v in range(9)]), 1),
    12: lambda: plan_call(example("cut_off.plan"), 1),
    13: lambda: Plan(1, [Arc(0, 0, MAY, 1)] * 2).write(),
    14: lambda: judge(CASE_A, [2]),
    15: lambda: judge(CASE_A, [0]),
    16: lambda: judge(CASE_A, []),
    17: lambda: distances(CASE_A, [(2, 0)]),
    18: bad_marks,
    19: lambda: plan_call_at(CASE_A, 1, [Window(2, 0, 0, 1)], Departure(0, 0)),
    20: lambda: plan_call_at(CASE_A, 1, [Window(0, 0, 0, 1)], Departure(0, 0)),
    21: lambda: OpenPlan.open(CASE_A).return_to(0),
    22: full,
    23: lambda: deep_call(CASE_A, 1, 0),
}


class Refusals(unittest.TestCase):
    def test_each_can_be_met(self) -> None:
        self.assertEqual(list(MET), list(range(1, 24)))
        for number, call in MET.items():
            with self.subTest(number), self.assertRaises(Refusal) as caught:
                call()
            self.assertEqual(caught.exception.number, number)

    def test_each_says_what_it_is_and_what_to_do(self) -> None:
        refusals = [Refusal(number) for number in range(1, 24)]
        for refusal in refusals:
            self.assertEqual(str(refusal), f"refusal {refusal.number}, {refusal.word}: {refusal.sentence}")
            self.assertTrue(refusal.advice[0].isupper() and refusal.advice.endswith("."), refusal)
            self.assertFalse(refusal.sentence[0].isupper() or refusal.sentence.endswith("."), refusal)
        for words in ("word", "sentence", "advice"):
            self.assertEqual(len({getattr(refusal, words) for refusal in refusals}), 23)

    def test_it_goes_by_its_number(self) -> None:
        refusal = Refusal(Refusal.CUT_OFF)
        self.assertEqual((refusal.number, refusal.word), (12, "cut off"))
        self.assertEqual({refusal, Refusal(12)}, {refusal})
        self.assertNotEqual(refusal, Refusal(11))
        self.assertEqual(pickle.loads(pickle.dumps(refusal)), refusal)
        self.assertEqual(repr(refusal), "Refusal(12)")

    def test_other_numbers_are_none(self) -> None:
        for number in (0, 24, -12):
            with self.assertRaises(ValueError):
                Refusal(number)


if __name__ == "__main__":
    unittest.main()
