"""postman drive, budgets, trees and judge: what they print and what their JSON holds."""

import csv
import io
import json
import unittest
from types import SimpleNamespace

from command import TOWN, TOWN_FOLDER, postman
from repository import ROOT, kept_plans
from test_streets_list import Folder

from postman import Answer, plan_call, plan_call_at, streets, tree_count
from postman.command.deepening import deepest, in_rounds
from postman.command.directions import advice
from postman.streets.windows_file import departure_of, read_windows

WINDOWS = str(TOWN_FOLDER / "windows.csv")
PLAN = str(ROOT / "examples" / "town.plan")


class Drive(Folder):
    def setUp(self):
        super().setUp()
        self.town = streets.open_list(TOWN)

    def test_directions_and_figures(self):
        done = postman("drive", TOWN, "--budget", "1000")
        answer = plan_call(self.town.file, 1000)
        lines = done.out.splitlines()
        self.assertEqual((done.status, done.err), (0, ""))
        self.assertEqual(lines[0].split(), ["step", "*", "street", "from", "to", "cost"])
        self.assertEqual(len(lines), 1 + answer.places + 7)
        first = self.town.streets[answer.drive[0]]
        self.assertRegex(
            lines[1], f"^   1  \\*  {first.street} +{first.from_corner} +{first.to_corner} +{first.checking}$"
        )
        stars = sum(line[6:7] == "*" for line in lines[1 : 1 + answer.places])
        self.assertEqual(stars, sum(street.must for street in self.town.streets))
        self.assertEqual(
            lines[-7:],
            [
                "* the street is checked on this pass",
                f"cost   {answer.cost:,}",
                f"floor  {answer.floor:,}",
                f"gap    {100 * answer.gap:.1f} %",
                f"trees  1,000 of {tree_count(self.town.file):,}",
                f"parts  {answer.parts}",
                "No budget can make it whole; one of 1,000,000 may find a cheaper drive.",
            ],
        )

    def test_advice(self):
        case_c, large = str(ROOT / "examples" / "case_c.plan"), str(ROOT / "examples" / "large_town.plan")
        for path, budget, wanted in [
            (case_c, 2, "Whole: all trees were tried, and no drive is cheaper."),
            (case_c, 1, "A budget of 2 would make it whole: --budget 2"),
            (large, 1_000_000, "No budget can make it whole: the highest is 1,000,000 trees."),
            (large, 10, "No budget can make it whole; one of 1,000,000 may find a cheaper drive."),
        ]:
            with self.subTest(wanted):
                self.assertEqual(postman("drive", path, "--budget", str(budget)).out.splitlines()[-1], wanted)

    def test_rounds(self):
        done = postman("drive", TOWN, "--budget", "10", "--rounds", "20", "--json")
        deep, plain = (json.loads(text) for text in (done.out, postman("drive", TOWN, "--budget", "10", "--json").out))
        self.assertLessEqual(deep["cost"], plain["cost"])
        self.assertGreaterEqual(deep["floor"], plain["floor"])
        self.assertEqual(deep["whole"], deep["cost"] == deep["floor"])
        self.assertIn(" in all rounds\n", postman("drive", TOWN, "--budget", "10", "--rounds", "2").out)

    def test_a_floor_that_is_met_without_all_trees(self):
        met = Answer(8, 8, 10, False, 2, (0, 1), ())
        self.assertEqual(
            advice(met, None), "The cost meets the floor: no drive is cheaper, though not all trees were tried."
        )

    def test_json_has_the_answers_words_as_keys(self):
        done = postman("drive", TOWN, "--budget", "1000", "--json")
        value, answer = json.loads(done.out), plan_call(self.town.file, 1000)
        for word in ("cost", "floor", "trees", "whole", "parts", "gap"):
            self.assertEqual(value[word], getattr(answer, word))
        self.assertEqual(value["drive"], list(answer.drive))
        self.assertEqual(value["multipliers"], list(answer.multipliers))
        self.assertEqual(value["corners"], [corner.name for corner in self.town.corners])
        self.assertEqual(value["tree_count"], tree_count(self.town.file))
        self.assertEqual([step["arc"] for step in value["steps"]], value["drive"])
        street = self.town.streets[answer.drive[3]]
        wanted = {"step": 4, "arc": answer.drive[3], "street": street.street, "from": street.from_corner}
        wanted |= {"to": street.to_corner, "checked": True, "cost": street.checking}
        self.assertEqual(value["steps"][3], wanted)
        self.assertEqual(sum(step["cost"] for step in value["steps"]), answer.cost)

    def test_the_steps_of_every_kept_plan_add_up(self):
        for path in kept_plans():
            if path.name == "cut_off.plan":
                continue
            with self.subTest(path.name):
                value = json.loads(postman("drive", str(path), "--budget", "10", "--json").out)
                self.assertEqual(sum(step["cost"] for step in value["steps"]), value["cost"])

    def test_csv_is_judged_to_cost_as_much(self):
        text = postman("drive", TOWN, "--budget", "10", "--csv").out
        rows = list(csv.DictReader(io.StringIO(text)))
        self.assertEqual(list(rows[0]), ["step", "arc", "street", "from", "to", "checked", "cost"])
        done = postman("judge", TOWN, self.file("drive.csv", text))
        answer = plan_call(self.town.file, 10)
        self.assertEqual(done.out.splitlines()[0], f"cost   {answer.cost:,}")
        self.assertEqual(done.out.splitlines()[1], f"floor  {answer.floor:,}")
        self.assertEqual(
            json.loads(postman("judge", TOWN, self.file("drive.csv", text), "--json").out)["cost"], answer.cost
        )

    def test_market_days(self):
        windows = [typed.window for typed in read_windows(WINDOWS, self.town)]
        answer = plan_call_at(self.town.file, 100, windows, departure_of("tue 09:30"))
        done = postman("drive", TOWN, "--budget", "100", "--at", "tue 09:30", "--windows", WINDOWS, "--json")
        value = json.loads(done.out)
        self.assertEqual((value["cost"], value["drive"]), (answer.cost, list(answer.drive)))
        self.assertNotEqual(answer.cost, plan_call(self.town.file, 100).cost)
        done = postman("drive", TOWN, "--at", "sat 09:30", "--windows", WINDOWS)
        self.assertEqual((done.status, done.out), (1, ""))
        self.assertIn("refusal 20, must shut:", done.err)
        self.assertIn("Shambles from Fish Steps to Market Square, shut by", done.err)

    def test_trees_at_a_departure_are_those_of_the_plan_call(self):
        # A budget of as many trees makes it whole, and of one less does not.
        path = self.file("list.csv", postman("show", str(ROOT / "examples" / "case_c.plan"), "--csv").out)
        windows = self.file("w.csv", "from,to,day,start,end\n0,2,tue,0:00,24:00\n")
        there = ("--at", "tue 9:00", "--windows", windows)
        trees = int(postman("trees", path, *there).out)
        self.assertEqual((trees, postman("trees", path).out), (1, "2\n"))
        self.assertTrue(json.loads(postman("drive", path, *there, "--budget", str(trees), "--json").out)["whole"])

    def test_maps_and_navigation(self):
        done = postman("drive", TOWN, "--budget", "10", "--geojson")
        self.assertEqual(json.loads(done.out)["features"][0]["geometry"]["coordinates"][0], [800, 760])
        self.assertIn("the coordinates are x and y as they stand in the list, and no map shows them: --or", done.err)
        done = postman("drive", TOWN, "--budget", "10", "--geojson", "--origin", "54.2,-2.3")
        value = json.loads(done.out)
        self.assertAlmostEqual(value["features"][0]["geometry"]["coordinates"][1][1], 54.2, delta=0.1)
        self.assertEqual(done.err, "")
        self.assertIn("are not there, and no map", postman("drive", PLAN, "--budget", "10", "--geojson").err)
        self.assertIn("<rtept", postman("drive", TOWN, "--budget", "10", "--gpx", "--origin", "54.2,-2.3").out)
        self.assertEqual(postman("drive", TOWN, "--gpx").status, 2)
        south = postman("drive", TOWN, "--budget", "10", "--gpx", "--origin", "-33.9,-70.6").out
        self.assertIn('lat="-33.89', south)
        self.assertIn("-5 is not a whole number", postman("drive", TOWN, "--budget", "-5").err)

    def test_standard_input(self):
        done = postman("drive", "-", stdin="from,to,standing,cost\nA,B,must,5\nB,A,may,3\n")
        self.assertEqual(done.out.splitlines()[-6:-4], ["cost   8", "floor  8"])
        done = postman("drive", "-", stdin=(ROOT / "examples" / "case_a.plan").read_bytes())
        self.assertEqual(done.out.splitlines()[-6:-4], ["cost   8", "floor  8"])


class Deepening(unittest.TestCase):
    def budgets(self, seconds_a_tree: float, gap_until: int) -> list[int]:
        """The budgets asked for, where a tree takes so long and the gap closes with that budget."""
        asked, now = [], [0.0]

        def ask(budget: int) -> int:
            asked.append(budget)
            now[0] += budget * seconds_a_tree
            return budget

        last = deepest(ask, lambda budget: budget >= gap_until, clock=lambda: now[0])
        self.assertEqual(last, asked[-1])
        return asked

    def test_as_deep_as_half_a_second_allows(self):
        self.assertEqual(self.budgets(0, 10**9), [10_000, 100_000, 1_000_000])
        self.assertEqual(self.budgets(4e-7, 10**9), [10_000, 100_000, 1_000_000])
        self.assertEqual(self.budgets(5e-7, 10**9), [10_000, 100_000])
        self.assertEqual(self.budgets(5e-6, 10**9), [10_000])

    def test_nothing_is_left_to_find(self):
        self.assertEqual(self.budgets(0, 10_000), [10_000])
        self.assertEqual(self.budgets(0, 50_000), [10_000, 100_000])


class Rounds(unittest.TestCase):
    def rounds(self, seconds_a_round: float, closed_by: int) -> list[int]:
        """The rounds asked for after a plan call, where each takes so long and the gap closes with so many."""
        asked, now = [], [seconds_a_round]

        def ask(rounds: int) -> SimpleNamespace:
            asked.append(rounds)
            now[0] += rounds * seconds_a_round
            return SimpleNamespace(cost=9, floor=9 if rounds >= closed_by else 8, rounds=rounds)

        last = in_rounds(SimpleNamespace(cost=9, floor=8), ask, 0.0, clock=lambda: now[0])
        self.assertEqual(last and last.rounds, asked[-1] if asked else None)
        return asked

    def test_as_many_as_half_a_second_allows(self):
        self.assertEqual(self.rounds(1e-5, 10**9), [8, 64, 512, 1_000])
        self.assertEqual(self.rounds(1e-3, 10**9), [8, 64])
        self.assertEqual(self.rounds(1e-2, 10**9), [8])
        self.assertEqual(self.rounds(1e-1, 10**9), [])

    def test_none_once_floor_and_cost_meet(self):
        self.assertEqual(self.rounds(1e-5, 60), [8, 64])

    def test_the_drive_goes_on_in_rounds(self):
        large = ROOT / "examples" / "large_town.plan"
        done = postman("drive", str(large))
        plain = postman("drive", str(large), "--budget", "1000000")
        cost = [int(run.out.splitlines()[-6].split()[1].replace(",", "")) for run in (done, plain)]
        self.assertLessEqual(*cost)


class Budgets(unittest.TestCase):
    def test_table_and_plot(self):
        done = postman("budgets", TOWN)
        lines = done.out.splitlines()
        file = streets.open_list(TOWN).file
        for line, budget in zip(lines[1:8], [10**power for power in range(7)]):
            answer = plan_call(file, budget)
            self.assertEqual(line.split()[:3], [f"{budget:,}", f"{answer.cost:,}", f"{answer.floor:,}"])
        plot = "".join(lines[9:-1])
        self.assertEqual((plot.count("o"), lines[-1].strip()), (7, "o cost   - floor"))
        self.assertLessEqual(max(map(len, lines)), 80)

    def test_json_and_csv(self):
        rows = json.loads(postman("budgets", TOWN, "--json").out)
        self.assertEqual([row["budget"] for row in rows], [10**power for power in range(7)])
        self.assertEqual(set(rows[0]), {"budget", "cost", "floor", "gap", "trees", "whole"})
        table = list(csv.DictReader(io.StringIO(postman("budgets", TOWN, "--csv").out)))
        self.assertEqual([int(row["cost"]) for row in table], [row["cost"] for row in rows])

    def test_a_flat_plot(self):
        lines = postman("budgets", str(ROOT / "examples" / "case_a.plan")).out.splitlines()
        self.assertEqual(lines[1].split()[-1], "yes")
        self.assertEqual(lines[-4].split("|")[1].split(), ["o"] * 7)


class Trees(unittest.TestCase):
    def test_the_number(self):
        self.assertEqual(postman("trees", str(ROOT / "examples" / "case_c.plan")).out, "2\n")
        value = json.loads(postman("trees", TOWN, "--json").out)
        self.assertEqual(value, {"tree_count": tree_count(streets.open_list(TOWN).file), "above": None})

    def test_above_what_is_counted(self):
        plan = str(ROOT / "tests" / "plans" / "climbed_long_searches.plan")
        self.assertEqual(postman("trees", plan).out, "above 4294967295\n")
        self.assertEqual(json.loads(postman("trees", plan, "--json").out), {"tree_count": None, "above": 4294967295})
        lines = postman("drive", plan, "--budget", "1").out.splitlines()
        self.assertEqual(lines[-3], "trees  1 of more than 4,294,967,295")


class Judge(Folder):
    def test_what_a_plan_file_s_drive_misses(self):
        done = postman("judge", PLAN, self.file("drive.txt", "0\n"))
        self.assertIn("refusal 15, unjoined:", done.err)
        done = postman("judge", PLAN, self.file("drive.txt", ""))
        self.assertEqual(done.err.splitlines()[-2:], ["  arc 53 from 18 to 19", "lead the drive over them"])

    def test_the_first_fault(self):
        done = postman("judge", TOWN, self.file("drive.txt", "42\n0\n"))
        self.assertEqual((done.status, done.out), (1, ""))
        self.assertIn("refusal 15, unjoined:", done.err)
        self.assertIn("High Street from Market Square to Corn Exchange ends at Corn Exchange", done.err)

    def test_a_plan_that_the_plan_call_refuses_has_no_floor(self):
        # Nine loops at one corner's neighbours: too many parts for a plan call, and still a drive.
        rows = [f"A,B{k},may,1\nB{k},A,may,1\nB{k},B{k},must,1" for k in range(9)]
        path = self.file("list.csv", "from,to,standing,cost\n" + "\n".join(rows))
        drive = self.file("drive.csv", "from,to\n" + "".join(f"A,B{k}\nB{k},B{k}\nB{k},A\n" for k in range(9)))
        done = postman("judge", path, drive)
        self.assertEqual((done.status, done.out), (0, "cost   27\n"))


if __name__ == "__main__":
    unittest.main()
