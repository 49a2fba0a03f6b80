"""Market days, cars' marks, pairs of corners and drives as files."""

import json
import unittest

from test_streets_list import Folder

from postman import Departure, Refusal, Window, judge, plan_call, streets
from postman.streets.drive_file import explain_drive, read_drive
from postman.streets.marks_file import marks_text, read_marks
from postman.streets.pairs_file import read_pairs
from postman.streets.windows_file import departure_of, must_shut, read_windows, shut_at

LIST = """\
from,to,standing,cost,street
A,B,must,5,Elm Street
B,A,may,5,Elm Street
B,C,must,3,Oak Lane
C,A,may,4,Ash Road
C,A,closed,2,Old Ash Road
C,B,may,9,
"""


class Lists(Folder):
    def setUp(self):
        super().setUp()
        self.town = streets.read(self.file("streets.csv", LIST))


class Windows(Lists):
    def windows(self, *rows: str, header: str = "street,from,to,day,start,end"):
        return read_windows(self.file("windows.csv", "\n".join([header, *rows])), self.town)

    def test_a_row_shuts_streets_on_days(self):
        found = self.windows("Elm Street,,,tue,07:30,15:00", ",C,A,sat sun,0:00,24:00")
        self.assertEqual(
            [typed.window for typed in found],
            [Window(0, 1, 450, 900), Window(1, 1, 450, 900)]
            + [Window(arc, day, 0, 1440) for arc in (3, 4) for day in (5, 6)],
        )
        self.assertEqual([typed.row.number for typed in found], [2, 2, 3, 3, 3, 3])

    def test_days(self):
        cases = [
            ("mon", [0]),
            ("Sunday", [6]),
            ("mon-fri", [0, 1, 2, 3, 4]),
            ("fri-mon", [0, 4, 5, 6]),
            ("daily", [*range(7)]),
        ]
        cases += [("tue thu", [1, 3]), ("thu-fri tue", [1, 3, 4])]
        for text, wanted in cases:
            with self.subTest(text):
                found = self.windows(f"Oak Lane,,,{text},1:00,2:00")
                self.assertEqual([typed.window.weekday for typed in found], wanted)
        quoted = self.windows('Oak Lane,,,"sat, sun",01:00:00,02:00:00')
        self.assertEqual([typed.window for typed in quoted], [Window(2, 5, 60, 120), Window(2, 6, 60, 120)])

    def test_wording(self):
        cases = [
            ("Oak Lane,,,someday,1:00,2:00", "day someday is no weekday: write mon, mon-fri, sat sun or daily"),
            ("Oak Lane,,,,1:00,2:00", "day is empty"),
            ("Oak Lane,,,tue,one,2:00", "start one is no time: write it as 07:30"),
            ("Oak Lane,,,tue,1:00,25:00", "end 25:00 is no time: write it as 07:30"),
            ("Oak Lane,,,tue,\u00b2:00,3:00", "start \u00b2:00 is no time: write it as 07:30"),
            ("Oak Lane,,,tue,1:60,2:00", "start 1:60 is no time: write it as 07:30"),
            ("Oak Lane,,,tue,2:00,2:00", "end 2:00 is not after start 2:00"),
            ("Oak Lane,C,B,tue,1:00,2:00", "streets.csv has no row with street Oak Lane, from C, to B"),
            ("Oak Lame,,,tue,1:00,2:00", "street Oak Lame is no street of streets.csv; did you mean Oak Lane?"),
            ("Oak Lane,D,,tue,1:00,2:00", "from D is no corner of streets.csv"),
        ]
        for row, message in cases:
            with self.subTest(message):
                self.fails(f"windows.csv row 2 ({row.split(',')[0]}): {message}", self.windows, row)
        self.fails(
            "windows.csv row 2: names no street: write its name, or its ends, or both", self.windows, ",,,tue,1:00,2:00"
        )
        message = (
            "windows.csv row 11 (Elm Street): 140 windows, one a street and day, and at most 128: this row is beyond"
        )
        rows = [f"Elm Street,,,daily,{hour}:00,{hour}:30" for hour in range(10)]
        self.fails(message, self.windows, *rows)

    def test_departures(self):
        self.assertEqual(departure_of("tue 09:30"), Departure(1, 570))
        self.assertEqual(departure_of(" Sunday  0:00 "), Departure(6, 0))
        for text in ("", "tue", "09:30", "tue 24:00", "tue 9", "tues 9:30", "tue \u00b2:30"):
            with self.subTest(text), self.assertRaisesRegex(ValueError, "is no departure"):
                departure_of(text)

    def test_what_is_shut(self):
        found = self.windows("Elm Street,,,tue,07:30,15:00", "Ash Road,,,tue,7:00,8:00")
        for minute, shut in [(419, []), (420, [3]), (450, [0, 1, 3]), (479, [0, 1, 3]), (480, [0, 1]), (900, [])]:
            self.assertEqual(sorted(shut_at(found, Departure(1, minute))), shut)
        self.assertEqual(shut_at(found, Departure(2, 470)), {})
        told = must_shut(self.town, found, Departure(1, 470)).replace(str(self.folder) + "/", "")
        self.assertEqual(
            told.split("\n"),
            [
                "streets that must be checked are shut at this departure:",
                "  Elm Street from A to B, shut by windows.csv row 2",
                "depart at another time, or make them may for this drive",
            ],
        )


class Marks(Lists):
    def marks(self, *rows: str, header: str = "street,from,to"):
        return read_marks(self.file("first.csv", "\n".join([header, *rows])), self.town)

    def test_a_name_marks_must_rows_and_ends_mark_any(self):
        self.assertEqual(self.marks("Elm Street"), {0})
        self.assertEqual(self.marks("Elm Street,B"), {1})
        self.assertEqual(self.marks("Oak Lane,B,C", ",C,B"), {2, 5})
        self.assertEqual(self.marks("A,B", header="from,to"), {0})
        self.assertEqual(self.marks(), frozenset())

    def test_wording(self):
        cases = [
            ("Ash Road", "street Ash Road has no must row in streets.csv: name its ends by from and to"),
            ("Elm", "street Elm is no street of streets.csv"),
        ]
        for row, message in cases:
            with self.subTest(message):
                self.fails(f"first.csv row 2 ({row}): {message}", self.marks, row)
        message = "first.csv row 2 (Old Ash Road), column street: Old Ash Road from C to A is closed in streets.csv"
        self.fails(message, self.marks, "Old Ash Road,C,A")
        self.fails("first.csv row 1: no column is named street, from or to", self.marks, "x", header="name")

    def test_marks_that_are_written_read_back(self):
        path = self.file("again.csv", marks_text(self.town, {0, 2, 5}))
        self.assertEqual(read_marks(path, self.town), {0, 2, 5})


class Pairs(Lists):
    def test_pairs(self):
        self.assertEqual(read_pairs(self.file("p.csv", "to,from\nA,B\nC,C\n"), self.town), [("B", "A"), ("C", "C")])
        message = "p.csv row 3: to D is no corner of streets.csv"
        self.fails(message, read_pairs, self.file("p.csv", "from,to\nA,B\nA,D\n"), self.town)
        self.fails("p.csv row 2: to is empty", read_pairs, self.file("p.csv", "from,to\nA,\n"), self.town)


class Drives(Lists):
    def drive(self, text: str):
        return read_drive(self.file("drive.csv", text), self.town)

    def judged(self, text: str) -> str:
        drive = self.drive(text)
        with self.assertRaises(Refusal) as caught:
            judge(self.town.file, drive.arcs)
        told = explain_drive(self.town, drive, caught.exception).replace(f"{self.folder}/", "")
        return f"{caught.exception.number}: {told}"

    def test_all_ways_of_writing_one_drive(self):
        ways = {
            "names": "street,from,to\nElm Street,A,B\nOak Lane,B,C\nAsh Road,C,A\n",
            "ends where they tell enough": "from,to\nA,B\nB,C\nC,A\n",
            "numbers": "0\n2\n3\n",
            "what the program drive prints": "cost 12\nfloor 12\ntrees 1\nwhole yes\nparts 1\narc 0\narc 2\narc 3\n",
            "a table of numbers": "step,arc\n1,0\n2,2\n3,3\n",
            "numbers and names": "arc;street\n0;Elm Street\n2;\n3;Ash Road\n",
            "JSON": json.dumps({"drive": [0, 2, 3], "cost": 12}),
            "a list": "[0, 2, 3]",
        }
        for way, text in ways.items():
            with self.subTest(way):
                self.assertEqual(self.drive(text).arcs, (0, 2, 3))
        self.assertEqual(judge(self.town.file, (0, 2, 3)), plan_call(self.town.file, 1).cost)

    def test_foreign(self):
        table = "street,from,to\nElm Street,A,B\n"
        for text, place in [
            ("0\n7\n", "line 2: arc 7"),
            ("[0, 99999]", "place 2: arc 99999"),
            ("[-1]", "place 1: arc -1"),
            (table + "Ash Road,B,C\n", "row 3: Ash Road from B to C"),
        ]:
            wanted = f"14: drive.csv {place} is no street of streets.csv: correct it, or take it out"
            self.assertEqual(self.judged(text), wanted)
        wanted = "14: drive.csv row 3: Old Ash Road from C to A is closed: lead around it, or open it in the list"
        self.assertEqual(self.judged(table + "Old Ash Road,C,A\n"), wanted)

    def test_unjoined(self):
        told = "Elm Street from A to B ends at B, and the next, Ash Road from C to A (line 2), begins at C"
        what = "put in the way between them"
        self.assertEqual(self.judged("0\n3\n"), f"15: drive.csv line 1: {told}: {what}")
        told = "Oak Lane from B to C ends at C, and the next, Elm Street from A to B (place 1), begins at A"
        self.assertEqual(self.judged("[0, 2]"), f"15: drive.csv place 2: {told}: {what}")

    def test_missed(self):
        wanted = "16: drive.csv: 1 must street is missed:\n  Oak Lane from B to C (row 4)\nlead the drive over it"
        self.assertEqual(self.judged("0\n1\n"), wanted)
        self.assertEqual(
            self.judged("[]"),
            "16: drive.csv: 2 must streets are missed:\n"
            "  Elm Street from A to B (row 2)\n"
            "  Oak Lane from B to C (row 4)\n"
            "lead the drive over them",
        )

    def test_wording(self):
        cases = [
            (
                "north\n",
                "drive.csv line 1: north is no arc number: "
                "write one a line, or a table with the columns from, to and street",
            ),
            ("{}", "drive.csv: has no drive: a list of arc numbers, or an object in which drive is one"),
            ("[0.5]", "drive.csv: has no drive: a list of arc numbers, or an object in which drive is one"),
            ("{", "drive.csv: line 1, column 2: Expecting property name enclosed in double quotes; this is no JSON"),
            ("[" * 100_000, "drive.csv: has too many brackets within each other; this is no JSON of a plan or a drive"),
            (f"[{'1' * 5000}]", f"drive.csv: {'1' * 40}... is no number that a plan can have"),
            ("[NaN]", "drive.csv: NaN is no number that a plan can have"),
            (
                "0\n\x1b[2J\n",
                "drive.csv line 2: [2J is no arc number: "
                "write one a line, or a table with the columns from, to and street",
            ),
            ("arc\nx\n", "drive.csv row 2: arc x is not a whole number"),
            ("from,to\nA,\n", "drive.csv row 2: to is empty"),
            (
                "arc,street\n0,Oak Lane\n",
                "drive.csv row 2 (Oak Lane): arc 0 has street Elm Street in streets.csv, and Oak Lane here",
            ),
        ]
        for text, message in cases:
            with self.subTest(message):
                with self.assertRaises(streets.ListError) as caught:
                    self.drive(text)
                self.assertEqual(str(caught.exception).replace(f"{self.folder}/", ""), message)

    def test_json_of_a_list_that_was_sorted_since(self):
        steps = [{"street": "Elm Street", "from": "A", "to": "B"}, {"street": "Ash Road", "from": 7}, 9]
        self.fails(
            "drive.csv place 2: arc 2 has street Oak Lane in streets.csv, and Ash Road here",
            self.drive,
            json.dumps({"drive": [0, 2, 3], "steps": steps}),
        )
        steps[1]["street"] = "Oak Lane"
        self.assertEqual(self.drive(json.dumps({"drive": [0, 2, 3], "steps": steps})).arcs, (0, 2, 3))
        self.assertEqual(self.drive(json.dumps({"drive": [0, 2], "steps": steps})).arcs, (0, 2))
        self.assertEqual(self.drive(json.dumps({"drive": [-1, 99, 3], "steps": steps})).arcs, (65535, 99, 3))

    def test_streets_that_names_do_not_tell_apart(self):
        path = self.file("streets.csv", LIST + "A,B,may,7,Elm Street\n")
        twice = streets.read(path)
        message = (
            "drive.csv row 2 (Elm Street), column street: may be row 2 (Elm Street) and row 8 (Elm Street) of "
            "streets.csv: add the column arc with the arc's number, from 0 on"
        )
        drive = self.file("drive.csv", "street,from,to\nElm Street,A,B\n")
        self.fails(message, read_drive, drive, twice)


if __name__ == "__main__":
    unittest.main()
