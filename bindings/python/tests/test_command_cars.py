"""postman cars and districts."""

import csv
import io
import json
import unittest
from contextlib import redirect_stderr
from pathlib import Path
from unittest import mock

from command import TOWN, TOWN_FOLDER, postman
from repository import ROOT
from test_streets_list import Folder

from postman import Car, plan_call, streets, two_cars
from postman.command import split
from postman.command.progress import Bars
from postman.streets.marks_file import read_marks
from postman.streets.steps import steps_of

FIRST, SECOND = str(TOWN_FOLDER / "first.csv"), str(TOWN_FOLDER / "second.csv")
DISTRICTS = sorted(str(path) for path in (TOWN_FOLDER / "districts").glob("*.csv"))
CUT_OFF = str(ROOT / "examples" / "cut_off.plan")


class Cars(Folder):
    def setUp(self):
        super().setUp()
        self.town = streets.open_list(TOWN)

    def test_both_drives_and_how_the_work_is_shared(self):
        done = postman("cars", TOWN, "--first", FIRST, "--second", SECOND, "--budget", "1000")
        self.assertEqual((done.status, done.err), (0, ""))
        marks = [read_marks(path, self.town) for path in (FIRST, SECOND)]
        cars = [Car([arc in own for arc in range(197)], 1000) for own in marks]
        answers = two_cars(self.town.file, *cars)
        lines = done.out.splitlines()
        total = sum(answer.cost for answer in answers)
        for line, name, answer in zip(lines[-2:], ("first", "second"), answers):
            share = f"{100 * answer.cost / total:.1f}"
            self.assertEqual(line.split()[0], name)
            self.assertIn(f"{answer.cost:,}  {share} %", line)
        self.assertEqual(done.out.count("* the street is checked on this pass"), 2)
        stars = sum(line[6:7] == "*" and line[:4].strip().isdigit() for line in lines)
        self.assertEqual(stars, sum(map(len, marks)))

    def test_what_neither_and_what_both_check(self):
        one = self.file("one.csv", "street\nShambles\nQuay\n")
        done = postman("cars", TOWN, "--first", one, "--second", SECOND, "--budget", "10")
        lines = done.out.splitlines()
        neither = sum(street.must for street in self.town.streets) - 19 - 1
        self.assertEqual(
            lines[-2],
            f"checked by neither car: High Street, Fish Lane, Bakers Row, Exchange Alley and 8 more ({neither} rows)",
        )
        self.assertEqual(lines[-1], "checked by both: Quay (2 rows)")

    def test_a_car_that_is_refused_does_not_keep_the_other(self):
        none = self.file("none.csv", "street\n")
        done = postman("cars", TOWN, "--first", none, "--second", SECOND, "--budget", "10")
        self.assertEqual(done.status, 1)
        self.assertIn("the first car: refusal 10, idle: no street is must", done.err)
        self.assertIn("second car", done.out)
        self.assertIn("refusal 10", done.out)
        value = json.loads(postman("cars", TOWN, "--first", none, "--second", SECOND, "--json").out)
        self.assertEqual(
            (value[0]["refusal"], value[1]["marks"]),
            ({"number": 10, "word": "idle"}, sorted(read_marks(SECOND, self.town))),
        )

    def test_a_proposal(self):
        done = postman("cars", TOWN, "--json")
        first, second = json.loads(done.out)
        must = [arc for arc, street in enumerate(self.town.streets) if street.must]
        self.assertEqual(sorted(first["marks"] + second["marks"]), must)
        alone = plan_call(self.town.file, 1000).cost
        self.assertLess(max(first["cost"], second["cost"]), 0.7 * alone)
        self.assertEqual(done.out, postman("cars", TOWN, "--json").out)

    def test_the_proposal_is_the_best_of_the_cuts(self):
        drive = plan_call(self.town.file, split.BUDGET).drive
        order = [step.arc for step in steps_of(self.town, drive) if step.checked]
        cuts = split.cuts_of(order)
        self.assertLessEqual(len(cuts), split.MOST_CUTS)

        def dearer(first, second) -> int:
            cars = (Car(split.marks_for(self.town, arcs), split.BUDGET) for arcs in (first, second))
            return max(answer.cost for answer in two_cars(self.town.file, *cars))

        costs = [dearer(*cut) for cut in cuts]
        self.assertEqual(dearer(*split.propose(self.town)), min(costs))
        self.assertLess(min(costs), max(costs))

    def test_a_proposal_that_is_kept_gives_the_same_drives(self):
        one, other = str(self.folder / "one.csv"), str(self.folder / "other.csv")
        proposed = postman("cars", TOWN, "--write", one, other, "--csv")
        self.assertEqual((proposed.status, proposed.err), (0, f"postman: {one} and {other}: the marks of both cars\n"))
        self.assertEqual(postman("cars", TOWN, "--first", one, "--second", other, "--csv").out, proposed.out)
        rows = list(csv.DictReader(io.StringIO(proposed.out)))
        self.assertEqual({row["car"] for row in rows}, {"first", "second"})
        again = postman("cars", TOWN, "--write", one, other)
        self.assertEqual((again.status, again.err), (2, f"postman: {one}: is there already; --force writes over it\n"))

    def test_wrong_usage(self):
        self.assertIn("--first and --second go together", postman("cars", TOWN, "--first", FIRST).err)
        one = self.file("one.csv", "from,to,standing,cost\nA,B,must,1\nB,A,may,1\n")
        done = postman("cars", one)
        self.assertEqual(done.status, 2)
        self.assertIn("there is nothing to share", done.err)
        self.assertEqual(postman("cars", CUT_OFF).status, 1)


class Districts(Folder):
    def test_each_is_answered_as_one_plan_call(self):
        done = postman("districts", *DISTRICTS, "--budget", "2500", "--json")
        self.assertEqual((done.status, done.err), (0, ""))
        values = json.loads(done.out)
        self.assertEqual([value["list"] for value in values], DISTRICTS)
        for value in values:
            with self.subTest(value["district"]):
                answer = plan_call(streets.open_list(value["list"]).file, 2500)
                self.assertEqual(
                    (value["cost"], value["drive"], value["whole"]), (answer.cost, list(answer.drive), answer.whole)
                )
                self.assertEqual(value["turns"], -(-answer.trees // 1000))

    def test_more_than_eight_wait_for_a_place(self):
        done = postman("districts", *DISTRICTS, *DISTRICTS, "--budget", "1001", "--csv")
        rows = list(csv.DictReader(io.StringIO(done.out)))
        names = [Path(path).stem for path in DISTRICTS]
        self.assertEqual([row.pop("district") for row in rows], names + [f"{name}-2" for name in names])
        self.assertEqual(rows[:8], rows[8:])

    def test_turn_by_turn(self):
        hill, mills = (str(TOWN_FOLDER / "districts" / f"{name}.csv") for name in ("hill", "mills"))
        lines = postman("districts", hill, mills, "--turns", "--budget", "2000").out.splitlines()
        self.assertRegex(lines[0], "^hill: 100 trees, cost [0-9]+, finished$")
        self.assertRegex(lines[1], "^mills: 1,000 trees, cost [0-9]+$")
        self.assertRegex(lines[2], "^mills: 2,000 trees, cost [0-9]+, finished$")
        self.assertEqual(lines[3].split(), ["district", "cost", "floor", "gap", "trees", "whole", "turns"])

    def test_who_is_refused_stops_nobody(self):
        bad = self.file("bad.csv", "from,to\n")
        done = postman("districts", CUT_OFF, DISTRICTS[2], "--budget", "10")
        self.assertEqual((done.status, len(done.out.splitlines())), (1, 2))
        self.assertIn("refusal 12, cut off", done.err)
        done = postman("districts", bad, CUT_OFF, DISTRICTS[2], "--json")
        self.assertEqual(done.status, 2)
        values = json.loads(done.out)
        self.assertEqual([value.get("refusal") for value in values], [None, {"number": 12, "word": "cut off"}, None])
        self.assertIn("no column is named standing", values[0]["error"])

    def test_drives_in_a_folder(self):
        folder = self.folder / "drives"
        done = postman("districts", *DISTRICTS, "--budget", "10", "--drives", str(folder))
        self.assertEqual(done.err, f"postman: {folder}: 8 drives\n")
        for path in DISTRICTS:
            drive = folder / Path(path).name
            self.assertEqual(postman("judge", path, str(drive)).status, 0)
        again = postman("districts", *DISTRICTS, "--budget", "10", "--drives", str(folder))
        self.assertEqual(again.status, 2)

    def test_bars_are_as_long_as_the_work_done(self):
        with mock.patch.dict("os.environ", COLUMNS="40", LINES="24"), redirect_stderr(io.StringIO()) as err:
            bars = Bars(["a", "long"], drawn=True)
            bars.set(0, 0.5, "cost 7")
            bars.set(1, 1, "cost 1,234")
            bars.end()
        first, last = err.getvalue().split("\033[2A")
        self.assertEqual(first, "\033[2Ka    [#########.........] cost 7\n\033[2Klong [..................] \n")
        self.assertEqual(last, "\033[2Ka    [#########.........] cost 7\n\033[2Klong [##################] cost 1,234\n")
        self.assertLess(max(map(len, last.replace("\033[2K", "").splitlines())), 40)


if __name__ == "__main__":
    unittest.main()
