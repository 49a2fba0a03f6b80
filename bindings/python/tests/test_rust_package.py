"""The Rust package: it can be packed, and answers what the Python package answers."""

import json
import os
import unittest
from collections.abc import Callable
from dataclasses import asdict

from repository import BUILD, ROOT, kept_plans, make, run

from postman import (
    Answer,
    Car,
    Departure,
    Districts,
    OpenPlan,
    Plan,
    Refusal,
    Standing,
    Window,
    distances,
    judge,
    plan_call,
    plan_call_at,
    short_call,
    tree_count,
    two_cars,
)

RUST = ROOT / "bindings" / "rust"


def cargo(*words: str) -> str:
    """Runs cargo over the library that the Python package loads; what it builds stays in build/."""
    make()
    places = {"POSTMAN_LIB_DIR": str(BUILD), "CARGO_TARGET_DIR": str(BUILD / "cargo")}
    return run("cargo", *words, cwd=RUST, env={**os.environ, **places}).stdout


def told(call: Callable[[], object]) -> object:
    """What a call says, as the Rust package's example prints it."""
    try:
        value = call()
    except Refusal as refusal:
        value = refusal
    if isinstance(value, Refusal):
        return {"refused": value.number, "text": str(value)}
    if isinstance(value, Answer):
        return json.loads(json.dumps(asdict(value)))
    return value


def windows(plan: Plan) -> list[Window]:
    return [Window(arc, 2, 480, 720) for arc in range(0, len(plan.arcs), 3)]


def edited(file: bytes, plan: Plan) -> list[object]:
    opened = OpenPlan.open(file)
    lines = []
    musts = [k for k, arc in enumerate(plan.arcs) if arc.standing == Standing.MUST]
    for i, k in enumerate(musts[:6]):
        lines.append(told(lambda: opened.change(k, plan.arcs[k].cost, 0, Standing.MAY)))
        if i == 2:
            opened.mark(1)
        lines.append(told(lambda: opened.ask(20, windows(plan), Departure(1, 600))))
    lines.append(told(lambda: opened.return_to(1)) or list(opened.file))
    return lines


def in_turn(file: bytes) -> list[object]:
    districts = Districts()
    lines = [told(lambda: districts.enter(file, budget)) for budget in (2_500, 0, 7)]
    for turn in districts:
        if turn.finished:
            lines.append({"place": turn.place, "answer": told(lambda: turn.answer)})
        else:
            lines.append({"place": turn.place, "cost": turn.cost, "trees": turn.trees})
    return lines


def answers(file: bytes) -> dict[str, object]:
    """What every call says of a plan file: the questions are those of bindings/rust/examples/answers.rs."""
    plan = Plan.read(file)
    n = plan.vertices
    pairs = [(k % n, (k // n * 7 + k) % 256 % n) for k in range(256)]
    page = distances(file, pairs)
    try:
        drive = plan_call(file, 10).drive
    except Refusal:
        drive = (0,)
    musts = [arc.standing == Standing.MUST for arc in plan.arcs]
    even, odd = ([must and k % 2 == remainder for k, must in enumerate(musts)] for remainder in (0, 1))
    arcs = [[arc.tail, arc.head, arc.standing, arc.cost, arc.checking] for arc in plan.arcs]
    departures = (Departure(2, 600), Departure(2, 720), Departure(7, 0))
    return {
        "read": [plan.edition, n, arcs],
        "plan_call": [told(lambda: plan_call(file, budget)) for budget in (0, 1, 10, 1_000)],
        "short_call": told(lambda: short_call(file)),
        "plan_call_at": [told(lambda: plan_call_at(file, 15, windows(plan), at)) for at in departures],
        "tree_count": told(lambda: tree_count(file)),
        "distances": [list(page.values), page.searches],
        "judge": [told(lambda: judge(file, places)) for places in (drive, drive[1:], (), (65535,))],
        "two_cars": [told(lambda: car) for car in two_cars(file, Car(even, 30), Car(odd, 40))],
        "open_plan": edited(file, plan),
        "districts": in_turn(file),
    }


class RustPackage(unittest.TestCase):
    def test_both_packages_answer_alike(self) -> None:
        plans = kept_plans()
        printed = cargo("run", "--quiet", "--release", "--offline", "--example", "answers", *map(str, plans))
        texts, *lines = printed.splitlines()
        self.assertEqual(json.loads(texts), [str(Refusal(number)) for number in range(1, 24)])
        self.assertEqual(len(lines), len(plans))
        refusals = set()
        for path, line in zip(plans, lines):
            of_rust, ours = json.loads(line), answers(path.read_bytes())
            self.assertEqual(of_rust.keys(), ours.keys())
            for name in ours:
                self.assertEqual(of_rust[name], ours[name], f"{path.name}: {name}")
            refusals |= {number for number in range(1, 24) if f'"refused": {number},' in line}
        # The questions meet refusals too.
        self.assertLessEqual({9, 12, 14, 15, 16, 19, 20}, refusals)

    def test_it_can_be_packed(self) -> None:
        """And what is packed can be built, over the library that `make` builds."""
        cargo("package", "--quiet", "--offline", "--allow-dirty")
        self.assertTrue((BUILD / "cargo" / "package" / "postman-0.1.0.crate").is_file())


if __name__ == "__main__":
    unittest.main()
