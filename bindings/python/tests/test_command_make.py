"""postman make, show and distances."""

import csv
import io
import json
import unittest
from copy import deepcopy
from pathlib import Path

from command import TOWN, postman
from repository import ROOT, example, kept_plans
from test_streets_list import Folder

from postman import Plan, distances, streets, tree_count

LIST = "from,to,standing,cost,street\nA,B,must,5,Elm\nB,A,may,3,Oak\n"
MAP = {
    "type": "FeatureCollection",
    "features": [
        {
            "type": "Feature",
            "properties": {"name": "Elm", "survey": "yes", "seconds": 12, "slow": 30, "title": "Elm Street"},
            "geometry": {"type": "LineString", "coordinates": [[-2.3, 54.2], [-2.298, 54.2]]},
        }
    ],
}


class Make(Folder):
    def path(self, name: str) -> str:
        return str(self.folder / name)

    def test_a_plan_of_a_list(self):
        target = self.path("a.plan")
        done = postman("make", self.file("list.csv", LIST), "-o", target)
        self.assertEqual((done.status, done.out), (0, ""))
        self.assertEqual(
            done.err, f"postman: {target}: 2 corners, 2 streets, 10 bytes, read back and compared row by row\n"
        )
        self.assertEqual(Path(target).read_bytes(), example("case_a.plan"))
        self.assertEqual(postman("make", self.path("list.csv"), "-q").status, 0)
        self.assertEqual(Path(self.path("list.plan")).read_bytes(), example("case_a.plan"))

    def test_a_plan_on_standard_output(self):
        done = postman("make", self.file("list.csv", LIST), "-o", "-")
        self.assertEqual(done.out.encode("utf-8", "surrogateescape"), example("case_a.plan"))

    def test_every_kept_plan_and_back(self):
        for path in kept_plans():
            with self.subTest(path.name):
                lists, plan = self.path("streets.csv"), self.path("again.plan")
                self.assertEqual(postman("make", str(path), "-o", lists, "--force").status, 0)
                self.assertEqual(postman("make", lists, "-o", plan).status, 0)
                self.assertEqual(Path(plan).read_bytes(), path.read_bytes())

    def test_lists_are_not_written_over(self):
        plan, lists = str(ROOT / "examples" / "case_a.plan"), self.path("streets.csv")
        self.file("corners.csv", "mine")
        done = postman("make", plan, "-o", lists)
        self.assertEqual(
            (done.status, done.err),
            (2, f"postman: {self.path('corners.csv')}: is there already; --force writes over it\n"),
        )
        self.assertFalse(Path(lists).exists())
        self.assertEqual(postman("make", plan, "-o", lists, "--force").status, 0)
        self.assertTrue(Path(self.path("corners.csv")).read_text().startswith("corner,x,y"))

    def test_lists_of_a_map(self):
        source = self.file("map.geojson", json.dumps(MAP))
        done = postman("make", source, "--must", "survey")
        self.assertEqual(done.status, 0)
        wanted = 'from,to,standing,cost,street\n"Elm, end","Elm, end (2)",must,130,Elm\n'
        wanted += '"Elm, end (2)","Elm, end",may,130,Elm\n'
        self.assertEqual(Path(self.path("map-streets.csv")).read_text(), wanted)
        wanted = 'corner,x,y,lon,lat\n"Elm, end",0,0,-2.3,54.2\n"Elm, end (2)",130.1,0,-2.298,54.2\n'
        self.assertEqual(Path(self.path("map-corners.csv")).read_text(), wanted)
        options = ("--name", "title", "--cost", "seconds", "--must", "survey=yes", "--checking", "slow", "--both-ways")
        self.assertEqual(postman("make", source, *options, "-o", self.path("x.csv")).status, 0)
        rows = list(csv.DictReader(io.StringIO(Path(self.path("x.csv")).read_text())))
        self.assertEqual(
            [(row["street"], row["cost"], row["checking"], row["standing"]) for row in rows],
            [("Elm Street", "12", "30", "must")] * 2,
        )
        self.assertTrue(Path(self.path("x-corners.csv")).exists())

    def test_what_is_noticed_in_a_map_is_noted_by_all(self):
        turns = deepcopy(MAP)
        turns["features"][0]["properties"] |= {"oneway": "reversible", "standing": "must"}
        source = self.file("map.geojson", json.dumps(turns))
        for argv in (["make", source], ["drive", source], ["show", source]):
            self.assertIn("map.geojson: 1 line is one way in turns, such as feature 1", postman(*argv).err)
            self.assertNotIn("in turns", postman(*argv, "--quiet").err)

    def test_a_map_that_is_too_large_is_written_to_be_edited(self):
        points = [[k / 1000, 0] for k in range(66)]
        lines = [
            {"type": "Feature", "properties": {}, "geometry": {"type": "LineString", "coordinates": [a, b]}}
            for a, b in zip(points, points[1:])
        ]
        source = self.file("map.geojson", json.dumps({"type": "FeatureCollection", "features": lines}))
        done = postman("make", source)
        self.assertEqual(done.status, 0)
        self.assertIn("no plan yet: refusal 3, extent: 66 corners", done.err)
        self.assertEqual(len(Path(self.path("map-streets.csv")).read_text().splitlines()), 131)

    def test_wrong_usage(self):
        path = self.file("list.csv", LIST)
        done = postman("make", path, "--must", "survey", "--both-ways")
        self.assertEqual(done.status, 2)
        self.assertTrue(done.err.endswith(f"postman make: --must, --both-ways is for maps, and {path} is none\n"))
        done = postman("make", "-", stdin=LIST)
        self.assertEqual(
            (done.status, done.err.splitlines()[-1]), (2, "postman make: say by -o what is made of standard input")
        )
        done = postman("make", path, "-o", self.path("no/such/folder.plan"))
        self.assertEqual(done.status, 2)
        self.assertIn("cannot be written: No such file or directory", done.err)


class Show(Folder):
    def test_what_a_list_holds(self):
        done = postman("show", TOWN)
        town = streets.open_list(TOWN)
        lines = done.out.splitlines()
        self.assertEqual(lines[1], f"corners  62 from {town.corners_path}, 62 with coordinates")
        self.assertEqual(lines[2], "streets  197: 40 must, 155 may, 2 closed")
        self.assertEqual(lines[3], "parts    7")
        self.assertEqual(lines[-1], f"trees    {tree_count(town.file):,}")
        self.assertEqual(len(lines), 12)
        self.assertLessEqual(max(map(len, lines[2:])), 80)

    def test_a_list_without_a_drive(self):
        done = postman("show", str(ROOT / "examples" / "cut_off.plan"))
        self.assertEqual(done.status, 0)
        self.assertTrue(done.out.splitlines()[-1].startswith("refusal  12, cut off: there is no way from corner 1"))

    def test_rows(self):
        lines = postman("show", self.file("list.csv", LIST), "--rows").out.splitlines()
        self.assertEqual(lines[-2].split(), ["2", "Elm", "A", "B", "must", "5"])

    def test_csv_and_json(self):
        done = postman("show", self.file("list.csv", LIST), "--csv")
        self.assertEqual((done.out, done.err), (LIST, ""))
        self.assertIn("the corners' order and coordinates are not in it", postman("show", TOWN, "--csv").err)
        value = json.loads(postman("show", TOWN, "--json").out)
        self.assertEqual((len(value["corners"]), len(value["streets"]), len(value["parts"])), (62, 197, 7))
        self.assertIsNone(value["refusal"])
        value = json.loads(postman("show", str(ROOT / "examples" / "cut_off.plan"), "--json").out)
        self.assertEqual(value["refusal"], {"number": 12, "word": "cut off"})


class Distances(Folder):
    def test_pairs(self):
        pairs = self.file("pairs.csv", "from,to\nMarket Square,South Gate\nSouth Gate,Market Square\n")
        rows = json.loads(postman("distances", TOWN, pairs, "--pair", "North Gate", "North Gate", "--json").out)
        town = streets.open_list(TOWN)
        numbers = [tuple(town.numbers[row[end]] for end in ("from", "to")) for row in rows]
        self.assertEqual([row["distance"] for row in rows], list(distances(town.file, numbers).values))
        table = postman("distances", TOWN, pairs).out.splitlines()
        self.assertEqual(table[1].split()[-1], str(rows[0]["distance"]))

    def test_more_pairs_than_a_page(self):
        town = streets.open_list(TOWN)
        names = [corner.name for corner in town.corners]
        pairs = self.file("pairs.csv", "from,to\n" + "".join(f"{a},{b}\n" for a in names[:10] for b in names))
        rows = list(csv.DictReader(io.StringIO(postman("distances", TOWN, pairs, "--csv").out)))
        self.assertEqual(len(rows), 620)
        wanted = [distances(town.file, [(a, b)]).values[0] for a in range(10) for b in range(62)]
        self.assertEqual([int(row["distance"]) for row in rows], wanted)

    def test_no_way(self):
        path = self.file("list.csv", "from,to,standing,cost\nA,B,must,5\n")
        self.assertEqual(
            postman("distances", path, "--pair", "B", "A").out.splitlines()[1].split(), ["B", "A", "no", "way"]
        )
        self.assertIsNone(json.loads(postman("distances", path, "--pair", "B", "A", "--json").out)[0]["distance"])

    def test_wrong_usage(self):
        self.assertIn("name a CSV of pairs, or a pair by --pair", postman("distances", TOWN).err)
        done = postman("distances", TOWN, "--pair", "Market Square", "Soth Gate")
        self.assertEqual(done, (2, "", f"postman: {TOWN}: Soth Gate is no corner; did you mean South Gate?\n"))


class Editions(Folder):
    def test_edition_2_is_made_of_checking_costs(self):
        target = str(self.folder / "town.plan")
        postman("make", TOWN, "-o", target)
        plan = Plan.read(Path(target).read_bytes())
        self.assertEqual(plan.edition, 2)
        self.assertEqual(plan, streets.open_list(TOWN).plan)


if __name__ == "__main__":
    unittest.main()
