"""The chart of budgets: logarithmic, with cost and floor where they are."""

import unittest
import xml.etree.ElementTree as ET

from repository import ROOT
from test_picture_svg import SVG, groups, points, words

from postman import Answer, picture, plan_call, streets
from postman.picture import svg_file


def answer(cost, floor, whole=False, trees=1):
    return Answer(cost, floor, trees, whole, 1, (0,), ())


class Chart(unittest.TestCase):
    def chart(self, rows):
        return ET.fromstring(svg_file(picture.budgets(rows)).encode())

    def line(self, root, kind):
        return points(next(path.get("d") for g in groups(root, kind) for path in g.iter(f"{SVG}path")))

    def test_powers_of_ten_are_equally_far_apart(self):
        root = self.chart([(10**k, answer(200 - k, 100)) for k in range(7)])
        places = [x for x, _ in self.line(root, "cost")]
        steps = [b - a for a, b in zip(places, places[1:])]
        self.assertEqual(len(places), 7)
        self.assertAlmostEqual(min(steps), max(steps), delta=0.2)
        self.assertGreater(steps[0], 0)

    def test_heights_are_the_values(self):
        rows = [(1, answer(400, 100)), (10, answer(250, 100)), (100, answer(150, 120))]
        root = self.chart(rows)
        heights = [y for _, y in self.line(root, "cost")] + [y for _, y in self.line(root, "floor")]
        values = [a.cost for _, a in rows] + [a.floor for _, a in rows]
        scale = (heights[0] - heights[-1]) / (values[0] - values[-1])
        self.assertLess(scale, 0)
        for height, value in zip(heights, values):
            self.assertAlmostEqual(height, heights[0] + scale * (value - values[0]), delta=0.2)
        bottom = [float(text.get("y")) for text in root.iter(f"{SVG}text") if text.text == "1"]
        self.assertGreater(bottom[0], max(heights))

    def test_it_says_the_numbers_and_where_all_trees_are_tried(self):
        root = self.chart([(1, answer(30, 10)), (10, answer(20, 20, True, 7))])
        self.assertEqual(words(root, "cost"), ["cost 20"])
        self.assertEqual(words(root, "floor"), ["floor 20"])
        self.assertIn("From a budget of 7 on all trees are tried: no drive is cheaper than 20.", words(root, "header"))
        titles = [g.find(f"{SVG}title").text for g in groups(root, "budget")]
        self.assertEqual(titles[1], "budget 10: cost 20, floor 20, 7 trees, all trees")

    def test_flat_lines_and_a_cost_of_nothing(self):
        for cost in (0, 1, 7, 65535):
            root = self.chart([(10**k, answer(cost, cost)) for k in range(7)])
            self.assertEqual(len(self.line(root, "cost")), 7)

    def test_the_kept_plans(self):
        for name in ("town.plan", "large_town.plan", "case_a.plan"):
            opened = streets.open_list(str(ROOT / "examples" / name))
            rows = [(10**k, plan_call(opened.file, 10**k)) for k in range(7)]
            last = rows[-1][1]
            root = self.chart(rows)
            self.assertEqual(words(root, "cost"), [f"cost {last.cost:,}"])
            self.assertEqual(words(root, "floor"), [f"floor {last.floor:,}"])


if __name__ == "__main__":
    unittest.main()
