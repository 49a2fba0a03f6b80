"""Every call, on plans whose answers are known."""

import dataclasses
import unittest
from datetime import datetime
from math import inf

from repository import CASE_A, ROOT, example, kept_plans

from postman import (
    Answer,
    Arc,
    Departure,
    Distances,
    Plan,
    Refusal,
    Standing,
    Window,
    deep_call,
    distances,
    judge,
    limits,
    plan_call,
    plan_call_at,
    short_call,
    tree_count,
)

MUST, MAY = Standing.MUST, Standing.MAY
LOOPS = Plan(
    3,
    [
        *(Arc(v, v, MUST, 1) for v in range(3)),
        *(Arc(0, 1, MAY, 2), Arc(1, 2, MAY, 2), Arc(2, 0, MAY, 2), Arc(0, 2, MAY, 3)),
    ],
)
"""Document 01's case C: three loops that must be driven, and four streets between them."""

MARKET = Plan(2, [Arc(0, 1, MUST, 5), Arc(1, 0, MAY, 3), Arc(1, 0, MAY, 9)])
"""A street that must be driven, a short way back over the market, and a long one around it."""


class Calls(unittest.TestCase):
    def refused(self, number: int, call, *arguments) -> None:
        with self.assertRaises(Refusal) as caught:
            call(*arguments)
        self.assertEqual(caught.exception.number, number, arguments)

    def test_case_a(self) -> None:
        answer = plan_call(CASE_A, 10_000)
        self.assertEqual(dataclasses.astuple(answer)[:6], (8, 8, 1, True, 1, (0, 1)))
        self.assertEqual((len(answer.multipliers), answer.multipliers[2:]), (64, (0,) * 62))
        self.assertEqual((answer.places, answer.gap), (2, 0.0))
        self.assertEqual(short_call(CASE_A), answer)

    def test_rounds(self) -> None:
        for budget in (1, 2):
            one, plain = deep_call(LOOPS, budget, 1), plan_call(LOOPS, budget)
            self.assertEqual((one.whole, dataclasses.replace(one, whole=plain.whole)), (one.cost == one.floor, plain))
        deep = deep_call(LOOPS, 1, 2)
        self.assertEqual((deep.cost, deep.floor, deep.trees, deep.whole), (9, 9, 2, True))
        self.assertEqual((deep_call(LOOPS, 1, limits.MOST_ROUNDS), judge(LOOPS, deep.drive)), (deep, 9))
        for rounds in (0, limits.MOST_ROUNDS + 1):
            self.refused(Refusal.ROUNDS, deep_call, LOOPS, 1, rounds)
            self.refused(Refusal.BUDGET, deep_call, LOOPS, 0, rounds)
            self.refused(Refusal.ROUNDS, deep_call, Plan(1, [Arc(0, 0, MAY, 1)]), 1, rounds)
        self.refused(Refusal.IDLE, deep_call, Plan(1, [Arc(0, 0, MAY, 1)]), 1, 1)

    def test_what_a_raised_budget_buys(self) -> None:
        first, whole = plan_call(LOOPS, 1), plan_call(LOOPS, 2)
        self.assertEqual((first.cost, first.floor, first.trees, first.whole), (14, 9, 1, False))
        self.assertEqual((whole.cost, whole.floor, whole.trees, whole.whole), (9, 9, 2, True))
        self.assertAlmostEqual(first.gap, 5 / 9)

    def test_a_gap_over_a_floor_of_0(self) -> None:
        free = Answer(0, 0, 1, True, 1, (), ())
        self.assertEqual((free.gap, dataclasses.replace(free, cost=1).gap), (0.0, inf))

    def test_examples_are_answered_as_drive_prints_them(self) -> None:
        names = sorted((ROOT / "examples").glob("*.plan"))
        self.assertGreaterEqual(len(names), 7)
        for path in names:
            try:
                answer = plan_call(path.read_bytes(), 10_000)
                whole = "yes" if answer.whole else "no"
                lines = [f"cost {answer.cost}", f"floor {answer.floor}", f"trees {answer.trees}", f"whole {whole}"]
                lines += [f"parts {answer.parts}", *(f"arc {arc}" for arc in answer.drive)]
            except Refusal as refusal:
                lines = [f"refused {refusal.number}"]
            self.assertEqual(lines, path.with_suffix(".txt").read_text().splitlines(), path)

    def test_the_short_call_tries_100000_trees(self) -> None:
        town = example("large_town.plan")
        self.assertEqual(short_call(town), plan_call(town, limits.DEFAULT_BUDGET))
        self.assertEqual(short_call(town).trees, 100_000)

    def test_budgets_beyond_the_limits(self) -> None:
        for budget in (0, -1, 1_000_001, 2**64, 2**64 + 1, -(2**64) + 1):
            self.refused(9, plan_call, CASE_A, budget)
        self.assertEqual(plan_call(CASE_A, 1_000_000), plan_call(CASE_A, 1))
        with self.assertRaises(TypeError):
            plan_call(CASE_A, 1.5)

    def test_a_plan_may_stand_for_its_file(self) -> None:
        self.assertEqual(plan_call(LOOPS, 2), plan_call(bytearray(LOOPS.write()), 2))
        self.refused(13, plan_call, Plan(2, MARKET.arcs * 2), 2)

    def test_windows_shut_at_departure(self) -> None:
        market = Window(1, weekday=5, from_minute=360, to_minute=840)
        for minute in (360, 839):
            saturday = plan_call_at(MARKET, 1, [market], Departure(5, minute))
            self.assertEqual((saturday.drive, saturday.cost, saturday.floor), ((0, 2), 14, 14))
        for weekday, minute in ((5, 359), (5, 840), (6, 600)):
            self.assertEqual(plan_call_at(MARKET, 1, [market], Departure(weekday, minute)), plan_call(MARKET, 1))
        parade = dataclasses.replace(market, arc=0)
        self.refused(20, plan_call_at, MARKET, 1, [market, parade], Departure(5, 360))
        self.refused(12, plan_call_at, CASE_A, 1, [market], Departure(5, 360))

    def test_windows_beyond_the_limits(self) -> None:
        noon, night = Departure(1, 720), Window(1, 1, 0, 60)
        self.assertEqual(plan_call_at(CASE_A, 1, [night] * 128, noon), plan_call(CASE_A, 1))
        self.refused(19, plan_call_at, CASE_A, 1, [night] * 129, noon)
        for change in (
            {"arc": 2},
            {"arc": -1},
            {"arc": 65537},
            {"weekday": 7},
            {"weekday": -1},
            {"weekday": 65537},
            {"from_minute": 60},
            {"from_minute": -1},
            {"from_minute": 65536},
            {"to_minute": 1441},
            {"to_minute": 65596},
            {"to_minute": -1},
        ):
            self.refused(19, plan_call_at, CASE_A, 1, [night, dataclasses.replace(night, **change)], noon)
        for weekday, minute in ((7, 0), (-1, 0), (2**32, 0), (0, 1440), (0, -1), (0, 2**32)):
            self.refused(19, plan_call_at, CASE_A, 1, [], Departure(weekday, minute))

    def test_departures_from_dates(self) -> None:
        self.assertEqual(Departure.at(datetime(2024, 2, 29, 23, 59)), Departure(3, 1439))

    def test_the_number_of_trees(self) -> None:
        self.assertEqual((tree_count(CASE_A), tree_count(LOOPS)), (1, 2))
        counts = [tree_count(path.read_bytes()) for path in kept_plans() if path.name != "cut_off.plan"]
        self.assertIn(None, counts)
        self.assertGreater(max(count for count in counts if count is not None), limits.HIGHEST_BUDGET)
        self.refused(12, tree_count, example("cut_off.plan"))

    def test_distances(self) -> None:
        plan = Plan(4, [Arc(0, 1, MAY, 2), Arc(1, 2, MAY, 2), Arc(0, 2, MAY, 5)])
        page = distances(plan, [(0, 1), (0, 2), (2, 0), (3, 3)])
        self.assertEqual(page, Distances((2, 4, None, 0), 3))
        self.assertEqual(distances(plan, iter([])), Distances((), 0))
        self.assertEqual(distances(plan, [(0, 1)] * 256).searches, 1)
        self.refused(17, distances, plan, [(0, 1)] * 257)
        for pair in ((4, 0), (0, 4), (-1, 0), (0, -1), (256, 0), (0, 256), (255, 257)):
            self.refused(17, distances, plan, [(0, 1), pair])

    def test_judging(self) -> None:
        for path in kept_plans():
            file = path.read_bytes()
            if path.name != "cut_off.plan":
                answer = plan_call(file, 10)
                self.assertEqual(judge(file, answer.drive), answer.cost, path)
        self.assertEqual(judge(CASE_A, iter([1, 0, 1, 0])), 16)
        for drive, number in (
            ([0, 0, 2], 14),
            ([0, -1], 14),
            ([65536, 1], 14),
            ([0, 2**70], 14),
            ([0], 15),
            ([0, 0], 15),
            ([], 16),
            ([0, 1] * 32768, 3),
        ):
            self.refused(number, judge, CASE_A, drive)
        self.assertEqual(judge(CASE_A, ([0, 1] * 32768)[:-2]), 8 * 32767)


if __name__ == "__main__":
    unittest.main()
