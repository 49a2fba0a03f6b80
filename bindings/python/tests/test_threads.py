"""Threads may call at once."""

import sys
import threading
import time
import unittest
from concurrent.futures import ThreadPoolExecutor

from repository import CASE_A, PACKAGE, ROOT, example, kept_plans, run

from postman import (
    Car,
    Departure,
    Districts,
    OpenPlan,
    Plan,
    Refusal,
    Standing,
    Window,
    distances,
    judge,
    plan_call,
    plan_call_at,
    short_call,
    tree_count,
    two_cars,
)

THREADS = 8


def everything(file: bytes) -> list[object]:
    """What every call says of a file."""
    plan = Plan.read(file)
    marks = [arc.standing == Standing.MUST for arc in plan.arcs]
    open_plan = OpenPlan.open(file)
    told: list[object] = [plan, plan.write(), distances(file, [(0, 1), (1, 0)])]
    told.append(two_cars(file, Car(marks, 9), Car(marks, 0)))
    for call in (
        lambda: plan_call(file, 50),
        lambda: plan_call_at(file, 5, [Window(0, 1, 0, 9)], Departure(2, 5)),
        lambda: short_call(file) if len(file) < 500 else None,
        lambda: tree_count(file),
        lambda: judge(file, plan_call(file, 3).drive),
        lambda: open_plan.ask(7),
    ):
        try:
            told.append(call())
        except Refusal as refusal:
            told.append(refusal)
    return told


class Threads(unittest.TestCase):
    def test_eight_threads_are_told_what_one_is(self) -> None:
        files = [path.read_bytes() for path in kept_plans()]
        expected = [everything(file) for file in files]
        together = threading.Barrier(THREADS)

        def work(seed: int) -> list[bool]:
            together.wait()
            order = [(seed + k) % len(files) for k in range(2 * len(files))]
            return [everything(files[k]) == expected[k] for k in order]

        with ThreadPoolExecutor(THREADS) as pool:
            for equal in pool.map(work, range(THREADS)):
                self.assertEqual(equal, [True] * 2 * len(files))

    def test_a_thread_of_the_stack_that_the_header_names(self) -> None:
        """In a process of its own, which would fall."""
        town = ROOT / "examples" / "large_town.plan"
        code = f"""
import sys, threading
sys.path[:0] = [{str(PACKAGE)!r}, {str(PACKAGE / "tests")!r}]
from postman import Districts, limits
from test_threads import everything

def work():
    file = open({str(town)!r}, "rb").read()
    districts = Districts()
    districts.enter(file, 2_500)
    print(len(list(districts)), len(everything(file)))

threading.stack_size(limits.STACK_BYTES)
thread = threading.Thread(target=work)
thread.start()
thread.join()
"""
        self.assertEqual(run(sys.executable, "-c", code).stdout, "3 10\n")

    def test_one_machine_for_eight_threads(self) -> None:
        """Its calls follow one another: every district finishes once, with its own answer."""
        town = example("large_town.plan")
        districts = Districts()
        for budget in range(1_000, 9_000, 1_000):
            districts.enter(town, budget)
        with ThreadPoolExecutor(THREADS) as pool:
            turns = [turn for line in pool.map(lambda _: list(districts), range(THREADS)) for turn in line]
        answers = {turn.place: turn.answer for turn in turns if turn.finished}
        self.assertEqual(len(turns), 36)
        self.assertEqual(answers, {place: plan_call(town, 1_000 * (place + 1)) for place in range(8)})

    def test_one_open_plan_for_eight_threads(self) -> None:
        plan = OpenPlan.open(CASE_A)
        plan.mark(0)

        def work(seed: int) -> None:
            for k in range(200):
                plan.change(1, 1 + (seed + k) % 9, 0, Standing.MAY)
                self.assertIn(plan.ask(1).cost, range(6, 15))

        with ThreadPoolExecutor(THREADS) as pool:
            list(pool.map(work, range(THREADS)))
        plan.return_to(0)
        self.assertEqual(plan.file, CASE_A)

    def test_a_call_lets_other_threads_run(self) -> None:
        """While one thread is inside a long call, this one goes on."""
        slow = (ROOT / "tests" / "plans" / "climbed_yardstick.plan").read_bytes()
        inside = []

        def call() -> None:
            begun = time.perf_counter()
            plan_call(slow, 1_000_000)
            inside.extend((begun, time.perf_counter()))

        # With the lock held there could be no tick inside; without it, a busy machine may still take several tries.
        for _ in range(20):
            inside.clear()
            thread = threading.Thread(target=call)
            ticks = []
            thread.start()
            while thread.is_alive():
                ticks.append(time.perf_counter())
            thread.join()
            begun, ended = inside
            margin = (ended - begun) / 4
            if any(begun + margin < tick < ended - margin for tick in ticks):
                return
        self.fail("no other thread ran during a call")


if __name__ == "__main__":
    unittest.main()
