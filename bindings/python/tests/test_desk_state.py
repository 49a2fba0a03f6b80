"""The desk's state: what an editor does, against the library's own calls."""

import unittest
from dataclasses import replace

from command import TOWN, TOWN_FOLDER
from repository import ROOT, kept_plans

from postman import Answer, Car, OpenPlan, Refusal, Standing, judge, plan_call, plan_call_at, streets, two_cars
from postman.desk import Desk
from postman.desk.state import Wrong
from postman.desk.view import VIEWS, picture, view
from postman.streets.windows_file import departure_of, read_windows, shut_at

BUDGET = 1000


class OnTheDesk(unittest.TestCase):
    def setUp(self):
        self.town = streets.open_list(TOWN)
        self.windows = read_windows(str(TOWN_FOLDER / "windows.csv"), self.town)
        self.desk = Desk(self.town, self.windows, budget=BUDGET)
        self.must = [arc for arc, street in enumerate(self.town.streets) if street.must]
        self.may = [arc for arc, street in enumerate(self.town.streets) if street.standing is Standing.MAY]

    def list_with(self, arc, **fields):
        rows = list(self.town.streets)
        rows[arc] = replace(rows[arc], **fields)
        return replace(self.town, streets=tuple(rows))

    def same(self, result):
        """The desk shows what the plan call answers for the list as it is now."""
        try:
            expected = plan_call(self.desk.streets.file, BUDGET)
        except Refusal as refusal:
            expected = refusal
        self.assertEqual(result, expected)
        self.assertEqual(self.desk.plan.file, self.desk.streets.file)


class Changes(OnTheDesk):
    def test_opened_it_is_the_list_s_plan(self):
        self.assertEqual(self.desk.plan.file, self.town.file)
        self.same(self.desk.result)
        self.assertIsNone(self.desk.before)

    def test_closing_and_opening(self):
        driven = next(arc for arc in self.desk.result.drive if arc in self.may)
        first = self.desk.result
        self.desk.change([driven], "closed")
        self.same(self.desk.result)
        self.assertNotIn(driven, self.desk.result.drive)
        self.assertEqual(self.desk.before, first)
        self.assertEqual(self.desk.plan.file, self.list_with(driven, standing=Standing.CLOSED).file)
        self.desk.change([driven], "open")
        self.assertEqual(self.desk.result, first)

    def test_a_must_street_comes_back_with_its_checking_cost(self):
        arc = self.must[3]
        self.assertNotEqual(self.town.streets[arc].checking, self.town.streets[arc].cost)
        self.desk.change([arc], "closed")
        self.desk.change([arc], "open")
        self.assertEqual(self.desk.plan.file, self.town.file)

    def test_what_was_closed_opens_as_may(self):
        arc = next(arc for arc, street in enumerate(self.town.streets) if street.standing is Standing.CLOSED)
        self.desk.change([arc], "open")
        self.assertIs(self.desk.streets.streets[arc].standing, Standing.MAY)

    def test_costs(self):
        self.desk.change([self.must[0]], cost=7, checking=321)
        changed = self.list_with(self.must[0], cost=7, checking=321)
        self.assertEqual(self.desk.plan.file, changed.file)
        self.assertEqual(self.desk.result, plan_call(changed.file, BUDGET))
        self.desk.change([self.may[0]], cost=0)
        self.same(self.desk.result)

    def test_a_may_street_made_must_is_checked_at_its_cost(self):
        arc = self.may[0]
        self.desk.change([arc], "must")
        self.assertEqual(self.desk.streets.streets[arc].checking, self.town.streets[arc].cost)
        self.same(self.desk.result)

    def test_the_way_back(self):
        arc = next(arc for arc in self.may if self.desk.way_back(arc))
        back = self.desk.way_back(arc)
        street, other = self.town.streets[arc], self.town.streets[back[0]]
        self.assertEqual((street.from_corner, street.to_corner), (other.to_corner, other.from_corner))
        self.assertEqual(street.street, other.street)
        self.desk.change([arc, *back], "closed")
        self.assertTrue(all(self.desk.streets.streets[one].standing is Standing.CLOSED for one in (arc, *back)))

    def test_what_is_refused_or_wrong_alters_nothing(self):
        before, serial = self.desk.plan.to_bytes(), self.desk.serial
        for call in (
            lambda: self.desk.change([len(self.town.streets)], "closed"),
            lambda: self.desk.change([-1], "closed"),
            lambda: self.desk.change([self.may[0], 999], "closed"),
            lambda: self.desk.change([self.must[0]], checking=0),
            lambda: self.desk.change([self.may[0]], "gone"),
            lambda: self.desk.change([self.may[0]], cost=65536),
            lambda: self.desk.change([self.may[0]], cost=-1),
            lambda: self.desk.change([self.may[0]], checking=5),
            lambda: self.desk.return_to(0),
            lambda: self.desk.return_to(4),
            lambda: self.desk.mark(4),
            lambda: self.desk.depart(7, 0),
            lambda: self.desk.depart(0, 1440),
            lambda: self.desk.spend(0),
            lambda: self.desk.spend(1_000_001),
            lambda: self.desk.paint(2, [0]),
            lambda: self.desk.paint(0, [999]),
        ):
            with self.assertRaises((Refusal, Wrong)):
                call()
        self.assertEqual((self.desk.plan.to_bytes(), self.desk.serial), (before, serial))

    def test_a_refused_change_names_the_rows(self):
        twice = streets.open_list(str(ROOT / "examples" / "town.plan"))
        arcs = twice.plan.arcs
        first = arcs[0]
        rows = (*twice.streets, replace(twice.streets[0], row=len(arcs), cost=first.cost + 1, street="again"))
        desk = Desk(replace(twice, streets=rows), budget=BUDGET)
        with self.assertRaises(Wrong) as caught:
            desk.change([len(arcs)], cost=first.cost)
        self.assertIn("refusal 13, repeated", str(caught.exception))
        self.assertIn("again", str(caught.exception))

    def test_a_plan_that_cannot_be_driven_is_explained(self):
        for arc in self.must:
            self.desk.change([arc], "may")
        self.assertEqual(self.desk.result.number, Refusal.IDLE)
        self.assertIn("no street is must", view(self.desk)["result"]["sentence"])

    def test_edition_1(self):
        desk = Desk(streets.open_list(str(ROOT / "examples" / "town.plan")), budget=BUDGET)
        with self.assertRaises(Wrong):
            desk.change([0], "must", checking=4)
        desk.change([0], "must", cost=9)
        self.assertEqual(desk.result, plan_call(desk.streets.file, BUDGET))


class Marks(OnTheDesk):
    def test_asking_after_a_return_gives_what_asking_at_the_mark_gave(self):
        self.desk.change([self.may[0]], "closed")
        at_mark = self.desk.result
        self.desk.mark(2)
        self.desk.change([self.must[0]], cost=5000)
        self.assertNotEqual(self.desk.result, at_mark)
        self.desk.return_to(2)
        self.assertEqual(self.desk.result, at_mark)

    def test_marks_show_what_they_hold(self):
        self.assertEqual(self.desk.marks(), [None] * 4)
        first = self.desk.result
        self.desk.mark(0)
        self.desk.change([self.must[0]], cost=5000)
        self.desk.mark(3)
        self.assertEqual(self.desk.marks(), [first, None, None, self.desk.result])

    def test_the_state_is_the_library_s_open_plan(self):
        plain = OpenPlan.open(self.town.file)
        self.desk.mark(1)
        plain.mark(1)
        self.desk.change([self.may[1]], "closed")
        plain.change(self.may[1], self.town.streets[self.may[1]].cost, 0, Standing.CLOSED)
        self.assertEqual(self.desk.plan, plain)
        self.assertEqual(self.desk.result, plain.ask(BUDGET))


class Departures(OnTheDesk):
    def test_at_a_departure(self):
        at = departure_of("sun 12:00")
        self.desk.depart(at.weekday, at.minute)
        plain = [typed.window for typed in self.windows]
        self.assertEqual(self.desk.result, plan_call_at(self.town.file, BUDGET, plain, at))
        self.assertEqual(self.desk.shut, set(shut_at(self.windows, at)))
        self.desk.depart(None, None)
        self.same(self.desk.result)
        self.assertEqual(self.desk.shut, frozenset())

    def test_a_must_street_that_is_shut_is_named(self):
        at = departure_of("mon 08:00")
        self.desk.depart(at.weekday, at.minute)
        self.assertEqual(self.desk.result.number, Refusal.MUST_SHUT)
        self.assertIn("School Lane", view(self.desk)["result"]["sentence"])

    def test_without_windows_there_is_no_departure(self):
        with self.assertRaises(Wrong):
            Desk(self.town, budget=BUDGET).depart(0, 0)


class TwoCars(OnTheDesk):
    def test_painting(self):
        self.assertIsNone(self.desk.of_cars())
        for arc in self.must[:4]:
            self.desk.paint(0, [arc])
        for arc in self.must[4:]:
            self.desk.paint(1, [arc])
        self.assertEqual(self.desk.cars, (frozenset(self.must[:4]), frozenset(self.must[4:])))
        marks = [[arc in own for arc in range(len(self.town.streets))] for own in self.desk.cars]
        self.assertEqual(self.desk.of_cars(), two_cars(self.town.file, *(Car(own, BUDGET) for own in marks)))

    def test_a_street_is_one_car_s_at_most_and_painting_again_takes_it(self):
        self.desk.paint(0, [self.must[0]])
        self.desk.paint(1, [self.must[0]])
        self.assertEqual(self.desk.cars, (frozenset(), {self.must[0]}))
        self.desk.paint(1, [self.must[0]])
        self.assertEqual(self.desk.cars, (frozenset(), frozenset()))

    def test_a_closed_street_is_no_car_s(self):
        self.desk.paint(0, [self.must[0], self.must[1]])
        self.desk.change([self.must[0]], "closed")
        self.assertEqual(self.desk.cars[0], {self.must[1]})
        with self.assertRaises(Wrong):
            self.desk.paint(0, [self.must[0]])
        self.assertIsInstance(self.desk.of_cars()[0], (Answer, Refusal))

    def test_sharing_out(self):
        self.desk.share()
        self.assertEqual(self.desk.cars[0] | self.desk.cars[1], set(self.must))
        self.assertEqual(self.desk.cars[0] & self.desk.cars[1], set())
        self.assertTrue(all(isinstance(answer, Answer) for answer in self.desk.of_cars()))
        self.desk.clear()
        self.assertIsNone(self.desk.of_cars())


class Judging(OnTheDesk):
    def test_its_own_drive(self):
        drive = self.desk.result.drive
        self.assertEqual(self.desk.judge("\n".join(map(str, drive))), (self.desk.result.cost, ""))
        self.assertEqual(judge(self.town.file, drive), self.desk.result.cost)

    def test_a_fault_by_name(self):
        drive = list(self.desk.result.drive)
        cost, fault = self.desk.judge("\n".join(map(str, drive[:-1])))
        self.assertIsNone(cost)
        self.assertIn("refusal 15, unjoined", fault)
        self.assertIn(self.town.streets[drive[0]].street, fault)

    def test_it_goes_by_the_plan_as_it_is_now(self):
        text = "\n".join(map(str, self.desk.result.drive))
        driven = next(arc for arc in self.desk.result.drive if arc in self.may)
        self.desk.change([driven], "closed")
        cost, fault = self.desk.judge(text)
        self.assertIsNone(cost)
        self.assertIn("is closed", fault)

    def test_judging_changes_nothing(self):
        before = self.desk.plan.to_bytes()
        self.desk.judge("1\n2\n3")
        self.assertEqual((self.desk.plan.to_bytes(), self.desk.serial), (before, 0))


class Shown(OnTheDesk):
    def test_what_changed(self):
        first = self.desk.result
        driven = next(arc for arc in first.drive if arc in self.may)
        self.desk.change([driven], "closed")
        shown = view(self.desk)
        now = self.desk.result
        self.assertEqual(shown["changed"]["cost"], now.cost - first.cost)
        self.assertEqual(shown["changed"]["floor"], now.floor - first.floor)
        names = [[self.town.streets[arc].name for arc in answer.drive] for answer in (first, now)]
        for name in set(names[0] + names[1]):
            moved = names[1].count(name) - names[0].count(name)
            self.assertEqual((name in shown["changed"]["more"], name in shown["changed"]["less"]), (moved > 0, moved < 0))
        self.assertTrue(shown["changed"]["more"])
        self.assertEqual(shown["result"]["cost"], now.cost)
        self.assertEqual([step["arc"] for step in shown["result"]["steps"]], list(now.drive))
        row = shown["streets"][driven]
        self.assertTrue(row["changed"] and row["standing"] == "closed" and row["was"].startswith("may, cost"))
        self.assertEqual(sum(row["passes"] for row in shown["streets"]), now.places)

    def test_every_picture(self):
        self.desk.share()
        pictures = {which: picture(self.desk, which) for which in VIEWS}
        self.assertEqual(len(set(pictures.values())), len(VIEWS))
        for svg in pictures.values():
            for arc in range(len(self.town.streets)):
                self.assertIn(f'data-arc="{arc}"', svg, "every street can be clicked in every picture")
        with self.assertRaises(Wrong):
            picture(self.desk, "other")

    def test_a_refused_plan_shows_the_town(self):
        for arc in self.must:
            self.desk.change([arc], "may")
        self.assertEqual(picture(self.desk, "drive"), picture(self.desk, "town"))

    def test_every_kept_plan(self):
        for path in kept_plans():
            desk = Desk(streets.open_list(str(path)), budget=100)
            shown = view(desk)
            self.assertEqual(len(shown["streets"]), len(desk.opened.streets), path.name)


if __name__ == "__main__":
    unittest.main()
