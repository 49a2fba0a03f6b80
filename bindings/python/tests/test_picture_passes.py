"""What each pass of a drive does: told from the drive, and adding up to what the library answers."""

import unittest
from collections import Counter

from repository import ROOT, kept_plans

from postman import Refusal, plan_call, streets
from postman.picture.passes import Purpose, corners_of_parts, passes


def answered():
    """The kept plans and the town, each with an answer."""
    for path in [*kept_plans(), ROOT / "examples" / "town" / "streets.csv"]:
        opened = streets.open_list(str(path))
        try:
            yield path.name, opened, plan_call(opened.file, 1000)
        except Refusal:
            continue


class Passes(unittest.TestCase):
    def test_costs_and_parts_are_the_answer_s(self):
        seen = 0
        for name, opened, answer in answered():
            with self.subTest(name):
                made = passes(opened, answer.drive)
                self.assertEqual([one.arc for one in made], list(answer.drive))
                self.assertEqual([one.step for one in made], list(range(1, answer.places + 1)))
                self.assertEqual(sum(one.cost for one in made), answer.cost)
                self.assertEqual(len(corners_of_parts(opened)), answer.parts)
                seen += 1
        self.assertGreater(seen, 8)

    def test_each_must_street_is_checked_once_and_first(self):
        for name, opened, answer in answered():
            with self.subTest(name):
                made = passes(opened, answer.drive)
                checks = Counter(one.arc for one in made if one.purpose is Purpose.CHECK)
                must = {arc for arc, street in enumerate(opened.streets) if street.must}
                self.assertEqual(checks, Counter(must))
                first = {}
                for one in made:
                    first.setdefault(one.arc, one.purpose)
                self.assertTrue(all(first[arc] is Purpose.CHECK for arc in must))

    def test_joining_leads_from_part_to_part_and_balancing_back(self):
        purposes = set()
        for name, opened, answer in answered():
            parts = corners_of_parts(opened)
            arcs = opened.plan.arcs
            made = passes(opened, answer.drive)
            for before, one, after in zip((made[-1], *made), made, (*made[1:], made[0])):
                purposes.add(one.purpose)
                self.assertEqual(one.leaves == one.reaches, one.purpose is not Purpose.JOINING, name)
                # A run leaves the part in which the check before it ended, and reaches that of the check after it.
                if before.purpose is Purpose.CHECK:
                    self.assertIn(arcs[before.arc].head, parts[one.leaves], name)
                if after.purpose is Purpose.CHECK:
                    self.assertIn(arcs[after.arc].tail, parts[one.reaches], name)
        self.assertEqual(purposes, set(Purpose))

    def test_document_01_s_cases(self):
        for case, expected in (
            ("case_a", ["check", "balancing"]),
            ("case_b", ["check", "joining", "check", "joining"]),
            ("case_c", ["check", "joining", "check", "joining", "check", "joining"]),
        ):
            opened = streets.open_list(str(ROOT / "examples" / f"{case}.plan"))
            made = passes(opened, plan_call(opened.file, 10_000).drive)
            self.assertEqual([one.purpose.value for one in made], expected, case)


if __name__ == "__main__":
    unittest.main()
