"""The pictures as SVG: parsed, and checked for what they show."""

import math
import os
import re
import subprocess
import sys
import unittest
import xml.etree.ElementTree as ET
from collections import Counter
from dataclasses import replace

from repository import PACKAGE, ROOT, kept_plans

from postman import Refusal, Standing, picture, plan_call, streets
from postman.picture import svg_file
from postman.picture.cars import car_list
from postman.picture.ground import ground
from postman.picture.passes import corners_of_parts
from postman.streets import Corner, Street, StreetList

SVG = "{http://www.w3.org/2000/svg}"
TOWN = str(ROOT / "examples" / "town" / "streets.csv")
HOSTILE = "<script>alert(1)</script> & \"O'Brien\" \x00\x1b]]> é"


def parsed(drawing):
    """A drawing's file, read by an XML parser."""
    return ET.fromstring(svg_file(drawing).encode("utf-8"))


def groups(root, kind):
    """The groups of a class, without samples of the legend."""
    found = [(set(group.get("class", "").split()), group) for group in root.iter(f"{SVG}g")]
    return [group for classes, group in found if kind in classes and "legend" not in classes]


def words(root, kind=None):
    chosen = groups(root, kind) if kind else [root]
    return [text.text for group in chosen for text in group.iter(f"{SVG}text")]


def legend(root):
    found = [group for group in root.iter(f"{SVG}g") if "legend" in group.get("class", "").split()]
    return {text.text for group in found for text in group.iter(f"{SVG}text") if text.get("class") == "words"}


def line(group):
    return next(path.get("d") for path in group.iter(f"{SVG}path") if path.get("class") == "line")


def points(way):
    return [tuple(map(float, pair.split())) for pair in re.split("[MLZ]", way) if pair]


def dense(way):
    """Points along a polyline, close to each other."""
    for (x, y), (end_x, end_y) in zip(way, way[1:]):
        for k in range(51):
            yield x + (end_x - x) * k / 50, y + (end_y - y) * k / 50


class Town(unittest.TestCase):
    def setUp(self):
        self.town = streets.open_list(TOWN)
        self.root = parsed(picture.town(self.town))

    def test_every_street_once_and_by_its_standing(self):
        arcs = groups(self.root, "arc")
        self.assertEqual(sorted(int(arc.get("data-arc")) for arc in arcs), list(range(len(self.town.streets))))
        for arc in arcs:
            street = self.town.streets[int(arc.get("data-arc"))]
            self.assertIn(street.standing.name.lower(), arc.get("class").split())
            crosses = [path for path in arc.iter(f"{SVG}path") if path.get("class") == "cross"]
            self.assertEqual(len(crosses), 2 if street.standing is Standing.CLOSED else 0)
            title = arc.find(f"{SVG}title").text
            self.assertIn(f"{street.name}: {street.from_corner} to {street.to_corner}", title)
            self.assertIn(f"cost {street.cost}", title)

    def test_lines_lead_from_corner_to_corner_with_an_arrow_on_them(self):
        corners = {int(g.get("data-corner")): g.find(f"{SVG}circle") for g in groups(self.root, "corner")}
        at = {number: (float(dot.get("cx")), float(dot.get("cy"))) for number, dot in corners.items()}
        for arc in groups(self.root, "arc"):
            plan = self.town.plan.arcs[int(arc.get("data-arc"))]
            way = points(line(arc))
            for end, corner in ((way[0], plan.tail), (way[-1], plan.head)):
                self.assertLess(max(abs(a - b) for a, b in zip(end, at[corner])), 6)
            head = next(path for path in arc.iter(f"{SVG}path") if path.get("class") == "head")
            tip, *_, = points(head.get("d"))
            tail, goal = at[plan.tail], at[plan.head]
            forward = sum((t - p) * (g - a) for t, p, g, a in zip(tip, points(head.get("d"))[2], goal, tail))
            self.assertGreater(forward, 0, "the arrow points the way that the street leads")

    def test_both_ways_of_a_street_lie_side_by_side(self):
        ways = [points(line(arc)) for arc in groups(self.root, "arc")]
        ends = Counter(frozenset((way[0], way[-1])) for way in ways)
        self.assertEqual(max(ends.values()), 1, "no two arcs are drawn over each other")

    def test_corners_at_their_coordinates_to_scale(self):
        dots = {g.find(f"{SVG}title").text: g.find(f"{SVG}circle") for g in groups(self.root, "corner")}
        first, second = self.town.corners[0], self.town.corners[10]
        a, b = dots[first.name], dots[second.name]
        per_metre = (float(b.get("cx")) - float(a.get("cx"))) / (second.x - first.x)
        self.assertGreater(per_metre, 0)
        self.assertAlmostEqual(float(b.get("cy")) - float(a.get("cy")), -per_metre * (second.y - first.y), delta=0.3)
        bar = groups(self.root, "scale")[0]
        metres = int(words(self.root, "scale")[-1].removesuffix(" m"))
        drawn = sum(float(box.get("width")) for box in bar.iter(f"{SVG}rect"))
        self.assertAlmostEqual(drawn, metres * per_metre, delta=0.3)

    def test_parts_title_and_legend(self):
        parts = corners_of_parts(self.town)
        self.assertEqual([text for text in words(self.root, "part")], [f"part {k}" for k in range(len(parts))])
        tints = [g for g in groups(self.root, "part") if any(p.get("class") == "tint" for p in g.iter(f"{SVG}path"))]
        self.assertEqual(len(tints), len(parts))
        self.assertIn("streets.csv", words(self.root, "header"))
        expected = {"must be driven", "may be driven", "closed", "a part: must streets that hang together"}
        self.assertEqual(legend(self.root), expected)

    def test_every_corner_is_named_and_most_streets(self):
        self.assertEqual(sorted(words(self.root, "corner")), sorted(corner.name for corner in self.town.corners))
        named = set(words(self.root, "name"))
        known = {street.street for street in self.town.streets}
        self.assertLessEqual(named, known)
        self.assertGreater(len(named), len(known) / 3)

    def test_streets_that_are_shut_are_drawn_as_closed(self):
        root = parsed(picture.town(self.town, shut={0, 5}))
        arcs = {int(arc.get("data-arc")): arc for arc in groups(root, "arc")}
        for arc in (0, 5):
            self.assertIn("closed", arcs[arc].get("class").split())
            self.assertIn("shut at departure", arcs[arc].find(f"{SVG}title").text)
        self.assertIn("closed, or shut at departure", legend(root))


class Drive(unittest.TestCase):
    def setUp(self):
        self.town = streets.open_list(TOWN)
        self.answer = plan_call(self.town.file, 10_000)
        self.root = parsed(picture.drive(self.town, self.answer))

    def test_numbered_in_the_order_driven(self):
        passes = {int(g.get("data-step")): g for g in groups(self.root, "pass")}
        self.assertEqual(sorted(passes), list(range(1, self.answer.places + 1)))
        self.assertEqual([int(passes[step].get("data-arc")) for step in sorted(passes)], list(self.answer.drive))
        for step, group in passes.items():
            self.assertEqual([text.text for text in group.iter(f"{SVG}text")], [str(step)])

    def test_repeats_lie_side_by_side(self):
        self.assertGreater(max(Counter(self.answer.drive).values()), 1)
        by_ends = {}
        for group in groups(self.root, "pass"):
            arc = self.town.plan.arcs[int(group.get("data-arc"))]
            way = points(line(group))
            middle = [sum(axis) / 2 for axis in zip(way[len(way) // 2 - 1], way[len(way) // 2])]
            by_ends.setdefault(frozenset((arc.tail, arc.head)), []).append(middle)
        for middles in by_ends.values():
            for k, one in enumerate(middles):
                for other in middles[k + 1 :]:
                    self.assertGreater(sum((a - b) ** 2 for a, b in zip(one, other)) ** 0.5, 4)

    def test_streets_that_are_not_driven_are_there_too(self):
        idle = {int(arc.get("data-arc")) for arc in groups(self.root, "arc")}
        self.assertEqual(idle, set(range(len(self.town.streets))) - set(self.answer.drive))

    def test_figures_start_and_legend(self):
        figures = " ".join(words(self.root, "header"))
        for number in (self.answer.cost, self.answer.floor):
            self.assertIn(f"{number:,}", figures)
        self.assertEqual(words(self.root, "start"), ["start"])
        self.assertLessEqual({"checks a must street", "not driven", "closed"}, legend(self.root))

    def test_a_whole_answer_says_so(self):
        opened = streets.open_list(str(ROOT / "examples" / "town.plan"))
        figures = " ".join(words(parsed(picture.drive(opened, plan_call(opened.file, 10_000))), "header"))
        self.assertIn("no drive is cheaper", figures)

    def test_very_many_passes_of_one_street_share_a_lane(self):
        # Twenty streets lead in, one leads back: the way back is driven twenty times.
        names = [f"end {k}" for k in range(20)]
        rows = [Street(k + 2, "hub", name, Standing.MUST, 5, None, "") for k, name in enumerate(names)]
        rows += [Street(k + 22, name, "gate", Standing.MAY, 1, None, "") for k, name in enumerate(names)]
        rows.append(Street(42, "gate", "hub", Standing.MAY, 1, None, "Gate Lane"))
        corners = tuple(Corner(name) for name in ("hub", "gate", *names))
        many = StreetList("many.csv", 1, corners, tuple(rows))
        root = parsed(picture.drive(many, plan_call(many.file, 100)))
        lanes = [g for g in groups(root, "pass") if int(g.get("data-arc")) == 40]
        self.assertEqual(len(lanes), 12)
        self.assertIn("+9", words(root, "pass"))


class Files(unittest.TestCase):
    @classmethod
    def setUpClass(cls):
        cls.all = list(cls.drawings())

    @staticmethod
    def drawings():
        for path in kept_plans():
            opened = streets.open_list(str(path))
            yield path.name, picture.town(opened)
            try:
                yield path.name, picture.drive(opened, plan_call(opened.file, 100))
            except Refusal:
                continue
        town = streets.open_list(TOWN)
        yield "town", picture.town(town)
        yield "cars", picture.cars(town, ({7, 8}, {9}))
        tall = replace(town, corners=tuple(replace(corner, x=corner.y, y=2 * corner.x) for corner in town.corners))
        yield "tall", picture.drive(tall, plan_call(town.file, 100), {0})
        yield "town", picture.budgets([(10**k, plan_call(town.file, 10**k)) for k in range(7)])

    def test_every_picture_fits_on_a4_and_holds_all_its_points(self):
        count = 0
        for name, drawing in self.all:
            with self.subTest(name):
                root = parsed(drawing)
                sides = sorted(float(root.get(side).removesuffix("mm")) for side in ("width", "height"))
                self.assertLessEqual(sides[0], 190.5)
                self.assertLessEqual(sides[1], 277.5)
                _, _, width, height = map(float, root.get("viewBox").split())
                way = "landscape" if width > height else "portrait"
                self.assertIn(f"@page {{ size: A4 {way}; margin: 10mm; }}", root.find(f"{SVG}style").text)
                for path in root.iter(f"{SVG}path"):
                    for x, y in points(path.get("d")):
                        self.assertTrue(-1 <= x <= width + 1 and -1 <= y <= height + 1, (x, y))
                for text in root.iter(f"{SVG}text"):
                    self.assertTrue(0 <= float(text.get("x")) <= width and 0 <= float(text.get("y")) <= height)
                count += 1
        self.assertGreater(count, 25)

    def test_nothing_of_other_files(self):
        for name, drawing in self.all:
            text = svg_file(drawing).replace('xmlns="http://www.w3.org/2000/svg"', "")
            for sign in ("http:", "https:", "url(", "@import", "<script", "href"):
                self.assertNotIn(sign, text, name)

    def test_dark_on_screens_and_light_in_print(self):
        style = parsed(picture.town(streets.open_list(TOWN))).find(f"{SVG}style").text
        light, dark = style.split("@media screen and (prefers-color-scheme: dark)")
        self.assertIn(".sheet { fill: #ffffff; }", light)
        self.assertIn(".sheet { fill: #12171f; }", dark)
        self.assertNotIn("var(", style)

    def test_told_apart_without_colour(self):
        style = svg_file(picture.town(streets.open_list(TOWN)))
        widths = dict(re.findall(r"\.postman \.(\w+) \.line \{ stroke-width: ([\d.]+);", style))
        dashes = dict(re.findall(r"\.postman \.(\S+) \.line \{[^}]*stroke-dasharray: ([\d. ]+);", style))
        self.assertGreater(float(widths["must"]), 2 * 1.4)
        self.assertEqual(len({dashes[kind] for kind in ("joining", "balancing")}), 2)
        self.assertIn("closed", dashes)
        self.assertNotIn("must", dashes)

    def test_names_are_text_and_not_markup(self):
        corners = (Corner(HOSTILE, 0, 0), Corner("b", 100, 50))
        rows = (
            Street(2, HOSTILE, "b", Standing.MUST, 5, None, HOSTILE),
            Street(3, "b", HOSTILE, Standing.MAY, 3, None, HOSTILE),
        )
        hostile = StreetList(HOSTILE, 1, corners, rows)
        root = parsed(picture.drive(hostile, plan_call(hostile.file, 10)))
        self.assertEqual({element.tag for element in root.iter()} & {f"{SVG}script"}, set())
        said = HOSTILE.replace("\x00", " ").replace("\x1b", " ")
        self.assertIn(said, [group.find(f"{SVG}title").text for group in groups(root, "corner")])

    def test_without_coordinates_it_is_not_to_scale(self):
        opened = streets.open_list(str(ROOT / "examples" / "town.plan"))
        root = parsed(picture.town(opened))
        self.assertEqual(words(root, "note"), ["Not to scale: the corners have no coordinates."])
        self.assertEqual(groups(root, "scale"), [])
        one = replace(opened, corners=(replace(opened.corners[0], x=1.0, y=1.0), *opened.corners[1:]))
        self.assertEqual(groups(parsed(picture.town(one)), "scale"), [])

    def test_corners_without_coordinates_among_others_lie_near_their_neighbours(self):
        town = streets.open_list(TOWN)
        missing = [town.numbers[name] for name in ("Theatre", "Observatory", "Terrace West", "Lime Kiln")]
        bare = [replace(c, x=None, y=None) if k in missing else c for k, c in enumerate(town.corners)]
        before, after = ground(town), ground(replace(town, corners=tuple(bare)))
        root = parsed(picture.town(replace(town, corners=tuple(bare))))
        self.assertEqual(words(root, "note"), ["4 corners without coordinates lie near their neighbours."])
        self.assertEqual(len(groups(root, "scale")), 1)
        self.assertEqual((before.guessed, after.guessed), (0, 4))
        self.assertTrue(all(0 <= x <= after.width and 0 <= y <= after.height for x, y in after.points))
        known = [k for k in range(62) if k not in missing]
        for one in known[::7]:
            for other in known[::5]:
                apart = math.dist(after.points[one], after.points[other]) / after.per_metre
                metres = math.dist(before.points[one], before.points[other]) / before.per_metre
                self.assertAlmostEqual(apart, metres, delta=1e-6 * (1 + metres))
        for k in missing:
            far = math.dist(after.points[k], after.points[known[0]]) / after.per_metre
            was = math.dist(before.points[k], before.points[known[0]]) / before.per_metre
            self.assertLess(abs(far - was), 250, town.corners[k].name)
        self.assertEqual(len(set(after.points)), 62)

    def test_a_corner_that_nothing_joins_to_known_ones_has_a_place(self):
        corners = (Corner("a", 0, 0), Corner("b", 100, 0), Corner("c"), Corner("d"), Corner("e"))
        ends = ["ab", "ba", "cd", "dc", "ea"]
        rows = [Street(k + 2, a, b, Standing.MAY, k + 1, None, "x") for k, (a, b) in enumerate(ends)]
        found = ground(StreetList("apart.csv", 1, corners, tuple(rows)))
        self.assertEqual((found.guessed, len(set(found.points))), (3, 5))
        self.assertGreater(found.points[2][1], max(y for _, y in found.points[:2]))

    def test_a_street_does_not_run_over_a_third_corner(self):
        corners = tuple(Corner(name, 0, y) for name, y in (("south", 0), ("middle", 100), ("north", 200)))
        ends = [("south", "middle"), ("middle", "north"), ("north", "south"), ("south", "north"), ("north", "south")]
        rows = [Street(k + 2, *pair, Standing.MUST, k + 1, None, "x") for k, pair in enumerate(ends)]
        straight = StreetList("straight.csv", 1, corners, tuple(rows))
        for root in (parsed(picture.town(straight)), parsed(picture.drive(straight, plan_call(straight.file, 1)))):
            (middle,) = [
                (float(dot.get("cx")), float(dot.get("cy")))
                for group in groups(root, "corner")
                if "middle" in "".join(group.itertext())
                for dot in group.iter(f"{SVG}circle")
            ][:1]
            ways = [points(line(group)) for kind in ("arc", "pass") for group in groups(root, kind)]
            past = [way for way in ways if way[0][1] < middle[1] - 20 < middle[1] + 20 < way[-1][1]]
            past += [way for way in ways if way[-1][1] < middle[1] - 20 < middle[1] + 20 < way[0][1]]
            self.assertGreaterEqual(len(past), 3)
            for way in past:
                self.assertGreater(min(abs(x - middle[0]) for x, y in dense(way) if abs(y - middle[1]) < 20), 9)

    def test_corners_on_one_spot_and_streets_from_a_corner_to_itself(self):
        corners = (Corner("a", 5, 5), Corner("b", 5, 5), Corner("c", 90, 5))
        ends = ["aa", "ab", "ba", "bc", "ca"]
        rows = [Street(k + 2, a, b, Standing.MAY, k + 1, None, "x") for k, (a, b) in enumerate(ends)]
        root = parsed(picture.town(StreetList("spot.csv", 1, corners, tuple(rows))))
        dots = [(c.get("cx"), c.get("cy")) for g in groups(root, "corner") for c in g.iter(f"{SVG}circle")]
        self.assertEqual(len(set(dots)), 3)
        self.assertEqual(len(groups(root, "arc")), 5)

    def test_the_same_each_time(self):
        script = (
            "import hashlib; from postman import streets, picture, plan_call\n"
            f"for path in ({TOWN!r}, {str(ROOT / 'examples' / 'large_town.plan')!r}):\n"
            "    s = streets.open_list(path); a = plan_call(s.file, 1000)\n"
            "    text = picture.svg_file(picture.town(s)) + picture.svg_file(picture.drive(s, a))\n"
            "    print(hashlib.sha256(text.encode()).hexdigest())\n"
        )
        runs = set()
        for seed in ("1", "2"):
            env = {**os.environ, "PYTHONHASHSEED": seed, "PYTHONPATH": str(PACKAGE)}
            runs.add(subprocess.run([sys.executable, "-c", script], env=env, capture_output=True, check=True).stdout)
        self.assertEqual(len(runs), 1)


class Cars(unittest.TestCase):
    def test_both_cars_streets_and_what_no_car_has(self):
        town = streets.open_list(TOWN)
        must = [arc for arc, street in enumerate(town.streets) if street.must]
        marks = (set(must[:5]), set(must[5:9]))
        root = parsed(picture.cars(town, marks))
        for kind, own in zip(("first-car", "second-car"), marks):
            self.assertEqual({int(g.get("data-arc")) for g in groups(root, kind)}, own)
        self.assertEqual({int(g.get("data-arc")) for g in groups(root, "must")}, set(must[9:]))
        self.assertLessEqual({"first car", "second car", "must, and no car's"}, legend(root))

    def test_a_car_s_list_has_its_marks_as_must_streets(self):
        town = streets.open_list(TOWN)
        own = car_list(town, {0, 3})
        self.assertEqual([arc for arc, street in enumerate(own.streets) if street.must], [0, 3])
        self.assertEqual(len(own.streets), len(town.streets))


if __name__ == "__main__":
    unittest.main()
