"""Plans, read and written."""

import dataclasses
import pickle
import unittest

from repository import CASE_A, example, kept_plans

from postman import Arc, Plan, Refusal, Standing, limits

MUST, MAY, CLOSED = Standing.MUST, Standing.MAY, Standing.CLOSED
A = Plan(2, (Arc(0, 1, MUST, 5), Arc(1, 0, MAY, 3)))


class Plans(unittest.TestCase):
    def refused(self, number: int, plan: Plan) -> None:
        with self.assertRaises(Refusal) as caught:
            plan.write()
        self.assertEqual(caught.exception.number, number)

    def test_case_a_both_ways(self) -> None:
        self.assertEqual(Plan.read(CASE_A), A)
        self.assertEqual(A.write(), CASE_A)
        self.assertEqual([arc.checking for arc in Plan.read(CASE_A).arcs], [5, 0])

    def test_every_kept_plan_is_written_as_it_was_read(self) -> None:
        editions = set()
        for path in kept_plans():
            plan = Plan.read(path.read_bytes())
            self.assertEqual(plan.write(), path.read_bytes(), path)
            editions.add(plan.edition)
        self.assertEqual(editions, {1, 2})

    def test_any_bytes_like_thing_is_a_file(self) -> None:
        for file in (bytearray(CASE_A), memoryview(CASE_A), memoryview(bytearray(CASE_A))):
            self.assertEqual(Plan.read(file), A)
        for wrong in (10, "file", [16, 64], None):
            with self.assertRaises(TypeError):
                Plan.read(wrong)

    def test_edition_2_has_checking_costs(self) -> None:
        arcs = (Arc(0, 1, MUST, 5, 9), Arc(1, 0, MAY, 0))
        plan = Plan(2, arcs, edition=2)
        self.assertEqual(Plan.read(plan.write()), plan)
        self.refused(6, dataclasses.replace(plan, edition=1))
        self.refused(6, Plan(2, (Arc(0, 1, MUST, 5, 0), arcs[1]), edition=2))
        self.refused(6, Plan(2, (arcs[0], Arc(1, 0, MAY, 3, 1)), edition=2))

    def test_what_no_file_holds_is_refused(self) -> None:
        for edition in (0, 3, -1, 2**32 + 1, 2**70):
            self.refused(2, dataclasses.replace(A, edition=edition))
        for vertices in (0, 65, -1, 2**32 + 2, 2**70):
            self.refused(3, dataclasses.replace(A, vertices=vertices))
        self.refused(3, Plan(2, ()))
        self.refused(3, Plan(2, [Arc(0, 1, MAY, k) for k in range(257)]))
        for vertex in (2, 255, 256, 257, -1, 2**70):
            self.refused(5, Plan(2, (Arc(vertex, 1, MAY, 5),)))
            self.refused(5, Plan(2, (Arc(1, vertex, MAY, 5),)))
        self.refused(13, Plan(2, (A.arcs[0], A.arcs[0])))

    def test_the_largest_plan(self) -> None:
        arcs = [Arc(k // 64, k % 64, MUST, 65535 - k, 65535) for k in range(256)]
        plan = Plan(64, arcs, edition=2)
        self.assertEqual(len(plan.write()), limits.LONGEST_FILE)
        self.assertEqual(Plan.read(plan.write()), plan)

    def test_costs_have_room_in_16_bits(self) -> None:
        self.assertEqual(Arc(0, 1, MAY, 65535).cost, 65535)
        for wrong in (-1, 65536):
            with self.assertRaisesRegex(ValueError, f"^cost {wrong} is (below 0|above 65535)$"):
                Arc(0, 1, MAY, wrong)
            with self.assertRaisesRegex(ValueError, "^checking cost "):
                Arc(0, 1, MUST, 5, wrong)
        for wrong in (1.5, "5", None):
            with self.assertRaises(TypeError):
                Arc(0, 1, MAY, wrong)
        with self.assertRaises(ValueError):
            Arc(0, 1, 3, 5)

    def test_arcs_fill_in_their_checking_cost(self) -> None:
        self.assertEqual([Arc(0, 1, standing, 5).checking for standing in (MAY, MUST, CLOSED)], [0, 5, 0])
        self.assertIs(Arc(0, 1, 1, 5).standing, MUST)

    def test_values_do_not_change(self) -> None:
        arcs = list(A.arcs)
        plan = Plan(2, arcs)
        arcs.clear()
        self.assertEqual(plan, A)
        for thing, field in ((plan, "arcs"), (plan.arcs[0], "cost")):
            with self.assertRaises(dataclasses.FrozenInstanceError):
                setattr(thing, field, 1)
            self.assertFalse(hasattr(thing, "__dict__"))
        self.assertEqual(hash(plan), hash(A))
        self.assertEqual(pickle.loads(pickle.dumps(plan)), plan)

    def test_a_file_that_does_not_read(self) -> None:
        town = example("town.plan")
        for file, number in (
            (b"", 1),
            (town[:2], 1),
            (town[:-1], 1),
            (b"\x30\x40\x20", 2),
            (b"\x10\x00\x20", 3),
            (town + b"\0", 4),
        ):
            with self.assertRaises(Refusal) as caught:
                Plan.read(file)
            self.assertEqual(caught.exception.number, number)


if __name__ == "__main__":
    unittest.main()
