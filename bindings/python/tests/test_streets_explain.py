"""What a refusal means in a street list."""

import unittest
from random import Random

import repository  # noqa: F401

from postman import Refusal, plan_call
from postman.streets.csv_file import read_csv
from postman.streets.explain import explain, pairs_without_way, parts_of


def listed(*rows: str, checking: bool = False):
    header = "from,to,standing,cost,checking,street" if checking else "from,to,standing,cost,street"
    return read_csv("list.csv", None, "\n".join([header, *rows]).encode())


class Explaining(unittest.TestCase):
    def told(self, number: int, town, sentence: str) -> None:
        with self.assertRaises(Refusal) as caught:
            plan_call(town.file, 1)
        self.assertEqual(caught.exception.number, number)
        self.assertEqual(explain(town, caught.exception), sentence)

    def test_too_many_corners(self):
        town = listed(*(f"A{k},A{k + 1},must,5," for k in range(64)))
        wanted = "65 corners, and a plan has at most 64; the first beyond them is A64: cut the list into sheets"
        self.told(Refusal.EXTENT, town, wanted)

    def test_too_many_streets(self):
        town = listed(*(f"A,B,must,{k + 1},Street {k}" for k in range(257)))
        wanted = "257 rows, and a plan has at most 256; the first beyond them is row 258 (Street 256): "
        wanted += "cut the list into sheets"
        self.told(Refusal.EXTENT, town, wanted)

    def test_unpriced(self):
        town = listed("A,B,may,0,Oak", "B,A,must,0,Elm")
        self.told(Refusal.UNPRICED, town, "row 3 (Elm): cost is 0, and the street is must: write 1 or more")
        town = listed("A,B,may,0,,Oak", "B,A,must,0,0,Elm", checking=True)
        self.told(Refusal.UNPRICED, town, "row 3 (Elm): checking is 0, and the street is must: write 1 or more")

    def test_idle(self):
        wanted = "no street is must: write must in the column standing of each street that is to be checked"
        self.told(Refusal.IDLE, listed("A,B,may,1,", "B,A,closed,1,"), wanted)

    def test_scattered_names_the_parts_by_their_streets(self):
        pairs = [(f"A{k},B{k},must,5,Out {k}", f"B{k},A{k},must,6,In {k}") for k in range(8)]
        more = [f"C{k},C{k + 1},must,7,Long {k}" for k in range(6)]
        lines = explain(listed(*(row for pair in pairs for row in pair), *more), Refusal(Refusal.SCATTERED)).split("\n")
        self.assertEqual(lines[0], "the must streets lie in 9 parts, and a plan has at most 8:")
        self.assertEqual(lines[1], "  part 0: Out 0, In 0")
        self.assertEqual(lines[9], "  part 8: Long 0, Long 1, Long 2, Long 3 and 2 more")
        self.assertEqual(lines[10:], ["make streets between two parts must, or cut the list into sheets"])

    def test_cut_off_names_two_corners(self):
        self.told(
            Refusal.CUT_OFF,
            listed("A,B,must,1,Elm", "B,C,may,1,Oak"),
            "there is no way from B to A, the ends of row 2 (Elm), which must be driven: "
            "open or add a street on the way",
        )
        self.told(
            Refusal.CUT_OFF,
            listed("A,B,must,1,Elm", "B,A,must,1,Elm", "B,C,may,1,Oak", "C,D,must,1,Ash", "D,C,may,1,Ash"),
            "there is no way from C to A, and row 5 (Ash) and row 2 (Elm) must be driven: "
            "open or add a street on the way",
        )

    def test_cut_off_at_a_corner_that_nobody_can_leave_or_come_to(self):
        ring = ("A,B,must,1,Elm", "B,A,must,1,Elm", "B,C,must,1,Oak", "C,B,may,1,Oak")
        self.told(
            Refusal.CUT_OFF,
            listed(*ring, "C,D,must,1,Ash", "D,C,closed,1,Ash"),
            "there is no way from D to A, nor to any other corner of a must street, "
            "and row 6 (Ash) and row 2 (Elm) must be driven: open or add a street on the way",
        )
        self.told(
            Refusal.CUT_OFF,
            listed(*ring, "D,C,must,1,Ash", "C,D,closed,1,Ash"),
            "there is no way from A to D, nor from any other corner of a must street, "
            "and row 2 (Elm) and row 6 (Ash) must be driven: open or add a street on the way",
        )

    def test_cut_off_by_marks_and_by_market_days(self):
        town = listed("A,B,must,1,Elm", "B,A,may,1,Elm", "B,C,may,1,Oak")
        self.assertIn("no way from C to B, the ends of row 4 (Oak)", explain(town, Refusal(12), must=[2]))
        self.assertIn("no way from B to A at this departure, the ends of row 2", explain(town, Refusal(12), shut=[1]))

    def test_distances_past_one_page(self):
        ring = [f"A{k},A{(k + 1) % 30},must,{k + 1}," for k in range(30)]
        town = listed(*ring, "A0,Z,must,1,Blind Alley")
        self.told(Refusal.CUT_OFF, town, explain(town, Refusal(12)))
        self.assertIn("there is no way from Z to A0", explain(town, Refusal(12)))

    def test_repeated_names_both_rows(self):
        town = listed("A,B,must,1,Elm", "B,A,may,1,Elm", "A,B,must,1,Oak")
        self.told(13, town, "row 2 (Elm) and row 4 (Oak) agree in from, to, standing and cost: delete one of them")
        town = listed("A,B,must,1,2,Elm", "A,B,must,1,3,Elm", "A,B,must,1,3,", checking=True)
        wanted = "row 3 (Elm) and row 4 (A to B) agree in from, to, standing, cost and checking: delete one of them"
        self.told(13, town, wanted)

    def test_others_are_told_by_their_sentence_and_advice(self):
        refusal = Refusal(Refusal.BUDGET)
        self.assertEqual(explain(listed("A,B,must,1,Elm"), refusal), f"{refusal.sentence}. {refusal.advice}")


def reached(town, start: int, shut) -> set[int]:
    """The corners that can be reached, by a plain walk."""
    seen, todo = {start}, [start]
    while todo:
        here = todo.pop()
        for number, arc in enumerate(town.plan.arcs):
            if arc.tail == here and arc.standing != 2 and number not in shut and arc.head not in seen:
                seen.add(arc.head)
                todo.append(arc.head)
    return seen


class Drawn(unittest.TestCase):
    """What is said of drawn lists is true of them."""

    def test_pairs_without_a_way(self):
        draw = Random(12)
        found = 0
        for _ in range(300):
            count = draw.randrange(2, 9)
            rows = {
                (
                    draw.randrange(count),
                    draw.randrange(count),
                    draw.choice(("may", "must", "must", "closed")),
                    draw.randrange(1, 9),
                )
                for _ in range(draw.randrange(1, 14))
            }
            town = listed(*(f"{tail},{head},{word},{cost}," for tail, head, word, cost in sorted(rows)))
            must = [number for number, street in enumerate(town.streets) if street.must]
            if not must:
                continue
            shut = {number for number in range(len(rows)) if draw.random() < 0.1} - set(must)
            required = {end for number in must for end in (town.plan.arcs[number].tail, town.plan.arcs[number].head)}
            wanted = {(a, b) for a in required for b in required - reached(town, a, shut)}
            self.assertEqual(set(pairs_without_way(town, must, shut)), wanted)
            self.assertEqual(len({part[0] for part in parts_of(town, must)}), len(parts_of(town, must)))
            try:
                self.assertEqual(plan_call(town.file, 1).parts, len(parts_of(town, must)))
            except Refusal as refusal:
                self.assertEqual(refusal.number, Refusal.CUT_OFF)
                self.assertRegex(explain(town, refusal), "^there is no way from .* to .* must be driven: open or add")
                found += 1
        self.assertGreater(found, 50)


class Parts(unittest.TestCase):
    def test_the_library_counts_as_many(self):
        town = listed("C,D,must,1,", "A,B,must,1,", "D,A,may,1,", "B,C,may,1,", "B,E,must,1,", "E,A,must,2,")
        parts = parts_of(town, [0, 1, 4, 5])
        self.assertEqual(parts, [[0], [1, 4, 5]])
        self.assertEqual(plan_call(town.file, 1).parts, len(parts))


if __name__ == "__main__":
    unittest.main()
