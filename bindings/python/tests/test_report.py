"""The report: one HTML file, parsed, and checked for what it says of a drive."""

import re
import unittest
from collections import Counter
from dataclasses import replace
from datetime import date

from command import TOWN, TOWN_FOLDER, postman
from pages import Page
from repository import ROOT, kept_plans
from test_streets_list import Folder

from postman import Answer, Departure, Refusal, Window, deep_call, plan_call, plan_call_at, streets, tree_count
from postman.picture.passes import Purpose, passes
from postman.picture.percent import percent
from postman.report import Job, report
from postman.report.market_days import spells
from postman.report.meaning import meaning
from postman.streets.windows_file import departure_of, read_windows, shut_at

WINDOWS = str(TOWN_FOLDER / "windows.csv")
BUDGETS = [10**k for k in range(7)]


def job_of(path, budget=1000, **fields):
    opened = streets.open_list(str(path))
    answer = plan_call(opened.file, budget)
    rows = [(budget, plan_call(opened.file, budget)) for budget in BUDGETS]
    return Job(opened, answer, tree_count(opened.file), rows, **{"made": date(2026, 11, 16), **fields})


class Report(unittest.TestCase):
    @classmethod
    def setUpClass(cls):
        cls.job = job_of(TOWN, title="Alderwick")
        cls.text = report(cls.job)
        cls.page = Page(cls.text)

    def test_it_needs_no_other_file(self):
        self.assertEqual(self.page.references(), [])
        for sign in ("@import", "url(", "fetch(", "XMLHttpRequest", "import("):
            self.assertNotIn(sign, self.text)
        self.assertNotRegex(self.text.replace("http://www.w3.org/2000/svg", ""), r"https?://")
        policy = self.page.all("meta", **{"http-equiv": "Content-Security-Policy"})[0][0]["content"]
        self.assertTrue(policy.startswith("default-src 'none'"))

    def test_cost_floor_and_gap_and_what_they_mean(self):
        answer = self.job.answer
        self.assertEqual(self.page.named("cost"), f"{answer.cost:,}")
        self.assertEqual(self.page.named("floor"), f"{answer.floor:,}")
        self.assertEqual(self.page.named("gap"), percent(answer))
        (_, said), = self.page.all("p", kind="meaning")
        self.assertEqual(said, meaning(answer))
        self.assertEqual(len(re.findall(r"[.](?: |$)", said)), 2, "two sentences")

    def test_the_steps_are_the_drive(self):
        rows = [attributes for attributes, _ in self.page.all("tr") if "data-step" in attributes]
        self.assertEqual([int(row["data-arc"]) for row in rows], list(self.job.answer.drive))
        self.assertEqual([int(row["data-step"]) for row in rows], list(range(1, self.job.answer.places + 1)))
        texts = [text for attributes, text in self.page.all("tr") if "data-step" in attributes]
        self.assertTrue(texts[-1].endswith(f"{self.job.answer.cost:,}"), "the last step's sum is the cost")
        for text, arc in zip(texts, self.job.answer.drive):
            street = self.job.streets.streets[arc]
            self.assertIn(f"{street.name}{street.from_corner} → {street.to_corner}", text)

    def test_every_step_has_its_arrow_and_every_arrow_its_step(self):
        steps = [attributes["data-step"] for attributes, _ in self.page.all("tr") if "data-step" in attributes]
        passes_drawn = [attributes for attributes, _ in self.page.all("g", kind="pass")]
        arrows = [attributes["data-step"] for attributes in passes_drawn if "data-step" in attributes]
        self.assertEqual(sorted(arrows, key=int), steps)

    def test_both_pictures_and_the_chart(self):
        self.assertEqual([a["id"] for a, _ in self.page.all("svg")], ["town", "drive", "budgets-chart"])
        names = self.page.names()
        self.assertEqual(len(names), len(set(names)))
        targets = {a["href"][1:] for a, _ in self.page.all("a")}
        self.assertLessEqual(targets, set(names))

    def test_what_is_driven_beyond_the_checks_and_why(self):
        section = self.text.split('<section id="repeats">')[1].split("</section>")[0]
        rows = re.findall(r"<tr><td>(.*?)</tr>", section, re.DOTALL)
        made = passes(self.job.streets, self.job.answer.drive)
        extra = {one.arc for one in made if one.purpose is not Purpose.CHECK}
        self.assertEqual(len(rows), len(extra))
        counts = Counter(self.job.answer.drive)
        said = sorted(int(re.findall(r"class=number>(\d+)<", row)[0]) for row in rows)
        self.assertEqual(said, sorted(counts[arc] for arc in extra))
        linked = Counter(int(step) for row in rows for step in re.findall(r"#step-(\d+)", row))
        self.assertEqual(linked, Counter(one.step for one in made if one.arc in extra))
        for row in rows:
            self.assertRegex(row, "joining: from part|balancing: back into part")

    def test_the_cost_is_made_of_checks_and_extra_passes(self):
        section = self.text.split('<section id="figures">')[1].split("</section>")[0]
        number = r"</td><td class=number>([\d,]+)"
        rows = {name: cost for name, _, cost in re.findall(rf"<tr><td>(checks|extra, \w+){number}{number}", section)}
        self.assertEqual(len(rows), 3)
        self.assertEqual(sum(int(cost.replace(",", "")) for cost in rows.values()), self.job.answer.cost)

    def test_budgets(self):
        section = self.text.split('<section id="budgets">')[1].split("</section>")[0]
        for budget, answer in self.job.budgets:
            cells = "".join(f"<td class=number>{number:,}</td>" for number in (budget, answer.cost, answer.floor))
            self.assertIn(f"<tr>{cells}", section)

    def test_print_on_a4(self):
        self.assertIn("@page { size: A4 portrait;", self.text)
        self.assertIn("@page picture { size: A4 landscape;", self.text)

    def test_every_kept_plan(self):
        count = 0
        for path in kept_plans():
            try:
                job = job_of(path, 100)
            except Refusal:
                continue
            page = Page(report(job))
            self.assertEqual(page.named("cost"), f"{job.answer.cost:,}")
            count += 1
        self.assertGreater(count, 8)

    def test_names_are_text_and_not_markup(self):
        hostile = "<img src=x onerror=alert(1)> & \"quoted\" 'single'"
        town = self.job.streets
        first = replace(town.streets[self.job.answer.drive[0]], street=hostile)
        rows = tuple(first if arc == self.job.answer.drive[0] else street for arc, street in enumerate(town.streets))
        page = Page(report(replace(self.job, streets=replace(town, streets=rows, path=hostile), title=hostile)))
        self.assertEqual(page.all("img"), [])
        self.assertEqual(page.all("h1")[0][1], hostile)
        self.assertIn(hostile, page.all("tr", id="step-1")[0][1])


class Meaning(unittest.TestCase):
    def answer(self, cost, floor, whole=False):
        return Answer(cost, floor, 1, whole, 1, (0,), ())

    def test_no_gap(self):
        self.assertIn("No drive, laid by anyone, costs less", meaning(self.answer(8, 8, True)))
        self.assertNotIn("dearer", meaning(self.answer(8, 8)))

    def test_a_gap(self):
        said = meaning(self.answer(110, 100))
        self.assertIn("floor of 100", said)
        self.assertIn("at most 10.00 % dearer", said)

    def test_a_floor_of_nothing(self):
        self.assertIn("a floor of 0 does not tell", meaning(self.answer(7, 0)))
        self.assertNotIn("%", meaning(self.answer(7, 0)))
        self.assertEqual(percent(self.answer(7, 0)), "unbounded")

    def test_a_gap_is_never_said_to_be_less_than_it_is(self):
        for cost, floor in ((1_000_001, 1_000_000), (100_006, 100_000), (3, 2), (2155, 2092), (10_049, 10_000), (90, 1)):
            said = percent(self.answer(cost, floor)).removesuffix(" %").replace(",", "")
            whole, hundredths = map(int, said.split("."))
            self.assertGreaterEqual((100 * whole + hundredths) * floor, 10_000 * (cost - floor))
            self.assertLess((100 * whole + hundredths - 1) * floor, 10_000 * (cost - floor))
        self.assertEqual(percent(self.answer(5, 5)), "0 %")
        self.assertEqual(percent(self.answer(2155, 2092)), "3.02 %")


class MarketDays(unittest.TestCase):
    def setUp(self):
        self.town = streets.open_list(TOWN)
        self.windows = read_windows(WINDOWS, self.town)
        self.plain = [typed.window for typed in self.windows]

    def ask(self, departure):
        return plan_call_at(self.town.file, 1000, self.plain, departure)

    def test_every_minute_of_the_week_is_in_one_spell(self):
        found = spells(self.windows, self.ask)
        shut = [spell.shut for spell in found]
        self.assertEqual(len(shut), len(set(shut)))
        every = {frozenset(shut_at(self.windows, Departure(day, minute))) for day in range(7) for minute in range(1440)}
        self.assertEqual(set(shut), every)

    def test_what_is_answered(self):
        for spell in spells(self.windows, self.ask):
            minutes = (Departure(day, minute) for day in range(7) for minute in range(1440))
            try:
                expected = self.ask(next(at for at in minutes if set(shut_at(self.windows, at)) == spell.shut))
            except Refusal as refusal:
                expected = refusal
            self.assertEqual(spell.result, expected)

    def test_times_in_words(self):
        window = self.windows[0]
        typed = (window._replace(window=Window(0, 1, 360, 900)), window._replace(window=Window(0, 5, 360, 900)))
        shut, free = spells(typed, lambda departure: departure)
        self.assertEqual(shut.times, "Tue, Sat 06:00 to 15:00")
        self.assertEqual(free.times, "at all other times")
        self.assertEqual(shut.result, Departure(1, 360))

    def test_in_the_report(self):
        at = departure_of("sun 12:00")
        answer = self.ask(at)
        job = job_of(TOWN, windows=self.windows, departure=at, spells=spells(self.windows, self.ask))
        page = Page(report(replace(job, answer=answer)))
        self.assertIn("market-days", page.names())
        self.assertIn("Sunday 12:00", page.named("figures"))
        self.assertIn("refused: must shut", page.named("market-days"))
        shut = set(shut_at(self.windows, at))
        drawn = {int(a["data-arc"]) for a, _ in page.all("g", kind="closed") if "data-arc" in a}
        self.assertLessEqual(shut, drawn)


class Command(Folder):
    def test_a_file(self):
        path = self.folder / "report.html"
        done = postman("report", TOWN, "--budget", "1000", "--title", "Alderwick", "-o", path)
        self.assertEqual((done.status, done.out), (0, ""))
        self.assertEqual(done.err, f"postman: {path}: the report\n")
        page = Page(path.read_text("utf-8"))
        answer = plan_call(streets.open_list(TOWN).file, 1000)
        self.assertEqual(page.named("cost"), f"{answer.cost:,}")
        self.assertEqual(page.all("h1")[0][1], "Alderwick")

    def test_in_rounds(self):
        done = postman("report", TOWN, "--budget", "1000", "--rounds", "20", "--windows", WINDOWS)
        page = Page(done.out)
        answer = deep_call(streets.open_list(TOWN).file, 1000, 20)
        self.assertEqual([page.named("cost"), page.named("floor")], [f"{answer.cost:,}", f"{answer.floor:,}"])
        self.assertIn(f"{answer.trees:,}, in all rounds", page.named("figures"))
        row = "".join(f"<td class=number>{cell}</td>" for cell in ("in rounds", f"{answer.cost:,}", f"{answer.floor:,}"))
        self.assertIn(f"<tr>{row}", done.out)
        self.assertIn("without rounds", page.named("market-days"))

    def test_rounds_and_a_departure_do_not_go_together(self):
        done = postman("report", TOWN, "--rounds", "20", "--windows", WINDOWS, "--at", "sun 12:00")
        self.assertEqual(done.status, 2)
        self.assertIn("--rounds and --at do not go together", done.err)

    def test_no_dearer_than_the_plan_call(self):
        large = ROOT / "examples" / "large_town.plan"
        cost = int(Page(postman("report", str(large)).out).named("cost").replace(",", ""))
        self.assertLessEqual(cost, plan_call(large.read_bytes(), 1_000_000).cost)

    def test_standard_output_and_market_days(self):
        done = postman("report", TOWN, "--windows", WINDOWS, "-q")
        self.assertEqual((done.status, done.err), (0, ""))
        self.assertIn("market-days", Page(done.out).names())

    def test_at_a_departure(self):
        done = postman("report", TOWN, "--windows", WINDOWS, "--at", "sun 12:00", "--budget", "100")
        town = streets.open_list(TOWN)
        plain = [typed.window for typed in read_windows(WINDOWS, town)]
        expected = plan_call_at(town.file, 100, plain, departure_of("sun 12:00"))
        self.assertEqual(Page(done.out).named("cost"), f"{expected.cost:,}")

    def test_a_street_list_is_not_written_over(self):
        path = self.file("streets.csv", "from,to,standing,cost\nA,B,must,1\nB,A,may,1\n")
        before = (self.folder / "streets.csv").read_bytes()
        self.assertEqual(postman("report", path, "-o", path).status, 2)
        for command in (("show", path), ("drive", path), ("budgets", path)):
            self.assertEqual(postman(*command, "--picture", path).status, 2)
        self.assertEqual((self.folder / "streets.csv").read_bytes(), before)

    def test_a_refusal_writes_nothing(self):
        path = self.folder / "report.html"
        done = postman("report", ROOT / "examples" / "cut_off.plan", "-o", path)
        self.assertEqual(done.status, 1)
        self.assertIn("refusal 12, cut off", done.err)
        self.assertFalse(path.exists())

    def test_pictures(self):
        for command, sign in (("show", "part 0"), ("drive", "the drive"), ("budgets", "budget: trees tried at most")):
            path = self.folder / f"{command}.svg"
            done = postman(command, TOWN, "--picture", path)
            self.assertEqual(done.status, 0)
            self.assertIn(sign, path.read_text("utf-8"))
            self.assertGreater(len(done.out), 100, "the result is printed all the same")

    def test_a_picture_that_cannot_be_written(self):
        done = postman("show", TOWN, "--picture", self.folder / "none" / "town.svg")
        self.assertEqual(done.status, 2)
        self.assertIn("cannot be written", done.err)


if __name__ == "__main__":
    unittest.main()
