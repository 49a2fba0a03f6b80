"""Street lists: corners, the plan of a list, reading back and comparing, and which file is what."""

import tempfile
import unittest
from dataclasses import replace
from pathlib import Path
from unittest import mock

from repository import CASE_A, ROOT, kept_plans

from postman import Arc, Plan, Refusal, Standing, plan_call, streets
from postman.streets import Corner, ListError
from postman.streets.csv_file import corners_beside, corners_text, files_of, read_csv, streets_text

LIST = b"from,to,standing,cost,checking,street\nB,A,must,5,9,Elm\nA,B,may,3,,Oak\nA,C,closed,4,,Ash\n"
FIRST = b"from,to,standing,cost\nB,A,must,5\nA,B,may,3\n"


class Folder(unittest.TestCase):
    def setUp(self):
        folder = tempfile.TemporaryDirectory()
        self.addCleanup(folder.cleanup)
        self.folder = Path(folder.name)

    def file(self, name: str, data: bytes | str) -> str:
        path = self.folder / name
        path.write_bytes(data.encode() if isinstance(data, str) else data)
        return str(path)

    def fails(self, message: str, call, *arguments, **options) -> ListError:
        with self.assertRaises(ListError) as caught:
            call(*arguments, **options)
        self.assertEqual(str(caught.exception).replace(f"{self.folder}/", ""), message)
        return caught.exception


class Plans(Folder):
    def test_the_plan_of_a_list(self):
        town = read_csv("list.csv", None, LIST)
        self.assertEqual([corner.name for corner in town.corners], ["B", "A", "C"])
        arcs = (Arc(0, 1, Standing.MUST, 5, 9), Arc(1, 0, Standing.MAY, 3), Arc(1, 2, Standing.CLOSED, 4))
        self.assertEqual(town.plan, Plan(3, arcs, 2))
        self.assertEqual(Plan.read(town.file), town.plan)
        self.assertEqual(plan_call(town.file, 1).cost, 12)

    def test_the_column_checking_makes_the_edition(self):
        self.assertEqual(read_csv("list.csv", None, LIST).file[0] >> 4, 2)
        self.assertEqual(read_csv("list.csv", None, FIRST).file[0] >> 4, 1)

    def test_corners_have_the_order_of_their_file(self):
        corners = self.file("corners.csv", 'corner,x,y\nC,1,2\nA,"3,5",-4.25\nB,,\nD,0,0\n')
        town = streets.read(self.file("streets.csv", LIST), corners)
        self.assertEqual(town.corners, (Corner("C", 1, 2), Corner("A", 3.5, -4.25), Corner("B"), Corner("D", 0, 0)))
        self.assertEqual(town.plan.arcs[0], Arc(2, 1, Standing.MUST, 5, 9))
        self.assertEqual(town.plan.vertices, 4)

    def test_wrong_corners(self):
        path = self.file("streets.csv", LIST)
        cases = [
            ("corner,x,y\nA,1,2\nB,1,2\n", "streets.csv row 4 (Ash): to C is no corner of corners.csv"),
            ("corner,x\nA,\n\nA,\n", "corners.csv row 4: corner A stands in row 2 already"),
            ("corner,x,y\nA,1,\n", "corners.csv row 2: corner A has x and no y"),
            ("corner,lon,lat\nA,,3\n", "corners.csv row 2: corner A has lat and no lon"),
            ("corner,x,y\nA,east,3\n", "corners.csv row 2: x east is not a number"),
            ("corner,x,y\nA,nan,3\n", "corners.csv row 2: x nan is not a number"),
            ("corner,x,y\nA,1,1e999\n", "corners.csv row 2: y 1e999 is not between -1000000000 and 1000000000"),
            ("corner,x,y\nA,-2e9,1\n", "corners.csv row 2: x -2e9 is not between -1000000000 and 1000000000"),
            ("corner,x,y\n,1,3\n", "corners.csv row 2: corner is empty"),
            ("corner\n", "corners.csv: has no corner; write one a row under the header"),
            ("name,x,y\nA,1,3\n", "corners.csv row 1: no column is named corner; the header has: name, x, y"),
        ]
        for text, message in cases:
            with self.subTest(message):
                self.fails(message, streets.read, path, self.file("corners.csv", text))

    def test_a_slip_of_the_pen_is_told(self):
        corners = self.file("corners.csv", "corner\nMarket Square\nMill\n")
        path = self.file("streets.csv", "from,to,standing,cost\nMarket Square,Mill,must,3\nMill,Market Sqare,may,3\n")
        message = "streets.csv row 3: to Market Sqare is no corner of corners.csv; did you mean Market Square?"
        self.fails(message, streets.read, path, corners)

    def test_refusals_of_the_writer_come_through(self):
        header = "from,to,standing,cost\n"
        many = [f"A{k},A{k + 1},may,1\n" for k in range(64)]
        for number, text in [(13, "A,B,must,5\n" * 2), (6, "A,B,must,0\n"), (3, "".join(many))]:
            with self.assertRaises(Refusal) as caught:
                read_csv("list.csv", None, (header + text).encode()).file
            self.assertEqual(caught.exception.number, number)
        # 300 corners have no room in a record's byte, and 257 arcs none in the file.
        for rows in ([f"A{k},A{k + 1},may,1\n" for k in range(300)], [f"A,B,may,{k}\n" for k in range(257)]):
            with self.assertRaises(Refusal) as caught:
                read_csv("list.csv", None, (header + "".join(rows)).encode()).file
            self.assertEqual(caught.exception.number, 3)


class Comparing(Folder):
    """What was typed is what is planned: another reader's plan is an error that names the row."""

    def held(self, **changes) -> Plan:
        plan = read_csv("list.csv", None, LIST).plan
        return replace(plan, arcs=(plan.arcs[0], replace(plan.arcs[1], **changes), plan.arcs[2]))

    def test_each_column_is_compared(self):
        cases = [
            (self.held(tail=2), "from", "from is A in the list and C in the plan's file"),
            (self.held(head=2), "to", "to is B in the list and C in the plan's file"),
            (
                self.held(standing=Standing.CLOSED),
                "standing",
                "standing is may in the list and closed in the plan's file",
            ),
            (self.held(cost=4), "cost", "cost is 3 in the list and 4 in the plan's file"),
            (self.held(checking=4), "checking", "checking is 0 in the list and 4 in the plan's file"),
        ]
        for plan, column, message in cases:
            with self.subTest(column):
                town = read_csv("list.csv", None, LIST)
                with mock.patch("postman.streets.street_list.Plan.read", return_value=plan):
                    error = self.fails(f"list.csv row 3 (Oak): {message}", lambda: town.file)
                self.assertEqual((error.row, error.column, error.street), (3, column, "Oak"))

    def test_the_whole_is_compared(self):
        town = read_csv("list.csv", None, LIST)
        cases = [
            (replace(town.plan, vertices=4), "corners: 3 in the list, 4 in the plan's file"),
            (replace(town.plan, arcs=town.plan.arcs[:2]), "streets: 3 in the list, 2 in the plan's file"),
            (replace(town.plan, edition=1), "edition: 2 in the list, 1 in the plan's file"),
        ]
        for plan, message in cases:
            self.fails(f"list.csv: {message}", town.compare, plan)
        town.compare(town.plan)


class Files(Folder):
    def test_every_kept_plan_becomes_a_list_and_the_same_plan_again(self):
        for path in kept_plans():
            with self.subTest(path.name):
                file = path.read_bytes()
                town = streets.open_list(str(path))
                self.assertEqual(town.file, file)
                target, corners = str(self.folder / "streets.csv"), str(self.folder / "corners.csv")
                streets.write(town, target, corners)
                again = streets.open_list(target)
                self.assertEqual((again.file, again.corners_path), (file, corners))

    def test_a_plan_file_has_numbers_for_names(self):
        town = streets.open_list(self.file("a.plan", CASE_A))
        self.assertEqual([corner.name for corner in town.corners], ["0", "1"])
        self.assertEqual([street.street for street in town.streets], ["arc 0", "arc 1"])
        self.assertEqual((town.place(1), town.unit), ("arc 1", "arc"))

    def test_a_torn_plan_file(self):
        message = (
            "a.plan: refusal 1, torn: the file has under 3 bytes, or fewer than its arcs need. "
            "Fetch the plan file again: its end is missing."
        )
        error = self.fails(message, streets.open_list, self.file("a.plan", CASE_A[:9]))
        self.assertEqual(error.refusal, Refusal(1))

    def test_what_a_file_is(self):
        geojson = b'{"type": "LineString", "coordinates": [[0, 0], [0, 0.001]]}'
        for name, data, unit in [
            ("a.plan", CASE_A, "arc"),
            ("a", CASE_A, "arc"),
            ("a.csv", LIST, "row"),
            ("a", LIST, "row"),
            ("a", LIST.decode().encode("utf-16"), "row"),
            ("a.geojson", geojson, "feature"),
            ("a", b"\n " + geojson, "feature"),
        ]:
            with self.subTest(name=name, unit=unit):
                self.assertEqual(streets.open_list(self.file(name, data)).unit, unit)
        for path in kept_plans():
            data = path.read_bytes()
            self.assertEqual(streets.kind_of("a", data), "plan", path.name)

    def test_corners_beside_a_list(self):
        self.assertEqual(corners_beside("town/streets.csv"), "town/corners.csv")
        self.assertEqual(corners_beside("streets/old-streets.csv"), "streets/old-corners.csv")
        self.assertEqual(corners_beside("town/hill.csv"), "town/hill-corners.csv")
        hill = self.file("hill.csv", LIST)
        self.assertIsNone(streets.open_list(hill).corners_path)
        beside = self.file("hill-corners.csv", "corner\nB\nC\nA\n")
        self.assertEqual([corner.name for corner in streets.open_list(hill).corners], ["B", "C", "A"])
        self.assertEqual(streets.open_list(hill).corners_path, beside)
        path = self.file("streets.csv", LIST)
        self.assertIsNone(streets.open_list(path).corners_path)
        beside = self.file("corners.csv", "corner\nC\nA\nB\n")
        self.assertEqual(streets.open_list(path).corners_path, beside)
        other = self.file("other.csv", "corner\nA\nB\nC\n")
        self.assertEqual([corner.name for corner in streets.open_list(path, other).corners], ["A", "B", "C"])

    def test_files_from_which_a_list_is_read_back_as_it_is(self):
        path = self.file("again.csv", "")
        alone = streets.read(self.file("list.csv", LIST))
        self.assertEqual(list(files_of(alone, path)), [path])
        turned = replace(alone, corners=alone.corners[::-1])
        placed = replace(alone, corners=(replace(alone.corners[0], x=1.0, y=2.0), *alone.corners[1:]))
        for known in (turned, placed, alone):
            for name, data in files_of(known, path).items():
                Path(name).write_bytes(data)
            self.assertEqual(streets.open_list(path).corners, known.corners)
            self.assertEqual(streets.open_list(path).file, known.file)
        # The last one wrote over the corners that the one before it left.
        self.assertEqual(len(files_of(alone, path)), 2)

    def test_degrees_are_written_where_they_are_known(self):
        town = read_csv("list.csv", None, FIRST)
        self.assertEqual(corners_text(town), "corner,x,y\nB,,\nA,,\n")
        placed = replace(town, corners=(Corner("B", 1.5, 2.0, -2.3, 54.2), Corner("A")))
        self.assertEqual(corners_text(placed), "corner,x,y,lon,lat\nB,1.5,2,-2.3,54.2\nA,,,,\n")
        self.assertEqual(streets_text(town), "from,to,standing,cost,street\nB,A,must,5,\nA,B,may,3,\n")


class Town(unittest.TestCase):
    """The example's town keeps within the limits, and is not trivial."""

    def test_the_town(self):
        town = streets.open_list(str(ROOT / "examples" / "town" / "streets.csv"))
        self.assertLessEqual(len(town.corners), 64)
        self.assertLessEqual(len(town.streets), 256)
        self.assertTrue(all(corner.x is not None for corner in town.corners))
        answer = plan_call(town.file, 10_000)
        self.assertGreater(answer.parts, 4)
        self.assertGreater(answer.gap, 0)


if __name__ == "__main__":
    unittest.main()
