"""Tables as spreadsheets write them."""

import csv
import io
import unittest
from random import Random
from unittest import mock

import repository  # noqa: F401

from postman import Standing
from postman.streets import ListError, Street, StreetList
from postman.streets.csv_file import corners_in_order, read_csv, streets_text
from postman.streets.table import encoded, name_of, read_bytes, read_table, written

PLAIN = "from,to,standing,cost,street\nA,B,must,5,Mill Lane\nB,A,may,3,Mill Lane\n"


def rows(data: bytes | str):
    data = data.encode() if isinstance(data, str) else data
    streets = read_csv("list.csv", None, data).streets
    return [(s.from_corner, s.to_corner, s.standing.name.lower(), s.cost, s.street) for s in streets]


def row_numbers(data: str) -> list[int]:
    return [street.row for street in read_csv("list.csv", None, data.encode()).streets]


class Quirks(unittest.TestCase):
    def test_all_ways_of_writing_one_list(self):
        wanted = [("A", "B", "must", 5, "Mill Lane"), ("B", "A", "may", 3, "Mill Lane")]
        crlf = PLAIN.replace("\n", "\r\n")
        ways = {
            "plain": PLAIN,
            "CRLF": crlf,
            "lone CR": PLAIN.replace("\n", "\r"),
            "no end of line": PLAIN.rstrip("\n"),
            "BOM": b"\xef\xbb\xbf" + PLAIN.encode(),
            "UTF-16": PLAIN.encode("utf-16"),
            "semicolons": PLAIN.replace(",", ";"),
            "tabs": PLAIN.replace(",", "\t"),
            "quotes": 'from,to,standing,cost,street\n"A","B","must","5","Mill Lane"\n"B","A","may","3","Mill Lane"\n',
            "blank rows": "\n,,,,\n" + PLAIN.replace("\n", "\n,,,,\n\n"),
            "spaces": "from , to,standing,cost, street\n A ,B, must ,5 ,Mill  Lane\nB,A,may,3,\tMill Lane \n",
            "capitals": "From,TO,Standing,Cost,Street\nA,B,MUST,5,Mill Lane\nB,A,May,3,Mill Lane\n",
            "another order": "street,cost,to,from,standing\nMill Lane,5,B,A,must\nMill Lane,3,A,B,may\n",
            "other columns": "id,from,to,note,standing,cost,street,note\n"
            "7,A,B,x,must,5,Mill Lane,y\n8,B,A,,may,3,Mill Lane,\n",
            "empty columns": "from,to,standing,cost,street,,\nA,B,must,5,Mill Lane,,\nB,A,may,3,Mill Lane,,\n",
            "no-break space": PLAIN.replace("Mill Lane", "Mill\u00a0Lane"),
            "CRLF with BOM and semicolons": b"\xef\xbb\xbf" + crlf.replace(",", ";").encode(),
        }
        for way, data in ways.items():
            with self.subTest(way):
                self.assertEqual(rows(data), wanted)

    def test_quoted_separators_quotes_and_line_breaks(self):
        data = (
            'from,to,standing,cost,street\n"Inn, the","say ""B""",must,5,"Mill\nLane"\n"say ""B""","Inn, the",may,3,\n'
        )
        self.assertEqual(
            rows(data), [("Inn, the", 'say "B"', "must", 5, "Mill Lane"), ('say "B"', "Inn, the", "may", 3, "")]
        )

    def test_rows_are_numbered_as_a_spreadsheet_numbers_them(self):
        self.assertEqual(row_numbers(PLAIN), [2, 3])
        self.assertEqual(row_numbers("\nfrom,to,standing,cost\n\nA,B,must,5\n,,,\nB,A,may,3\n"), [4, 6])
        self.assertEqual(row_numbers('from,to,standing,cost,street\nA,B,must,5,"two\nlines"\nB,A,may,3,x\n'), [2, 3])

    def test_accents_are_compared_composed(self):
        data = "from,to,standing,cost\nCafe\u0301,B,must,5\nB,Caf\u00e9,may,3\n"
        self.assertEqual(len(read_csv("list.csv", None, data.encode()).corners), 2)

    def test_what_a_terminal_would_obey_is_no_part_of_a_name(self):
        data = "from,to,standing,cost,street\nA\x1b[31m,B\x07,must,5,Mill\x00\x1b Lane\n".replace("\x00", "\x01")
        self.assertEqual(rows(data), [("A [31m", "B", "must", 5, "Mill Lane")])

    def test_whole_numbers_in_tables_of_decimals(self):
        header = "from;to;standing;cost;checking;street\n"
        found = read_csv("list.csv", None, f"{header}A;B;must;12,0;30.00;Elm\nB;A;may;+3;;\n".encode())
        self.assertEqual([(street.cost, street.checking) for street in found.streets], [(12, 30), (3, None)])

    def test_corners_that_differ_in_capitals_are_noted(self):
        found = read_csv("list.csv", None, b"from,to,standing,cost\nMill Yard,B,must,3\nB,Mill yard,may,3\n")
        wanted = "Mill Yard and Mill yard are two corners: write both names alike if they are one"
        self.assertEqual((len(found.corners), found.notes), (3, (wanted,)))
        self.assertEqual(read_csv("list.csv", None, PLAIN.encode()).notes, ())

    def test_short_rows_end_in_empty_cells(self):
        self.assertEqual(rows("from,to,standing,cost,street\nA,B,must,5\n"), [("A", "B", "must", 5, "")])


class Errors(unittest.TestCase):
    def refused(self, data: bytes | str, message: str) -> ListError:
        with self.assertRaises(ListError) as caught:
            rows(data)
        self.assertEqual(str(caught.exception), message)
        return caught.exception

    def test_wording(self):
        header = "from,to,standing,cost,checking,street\n"
        good = "A,B,must,5,6,Elm\n"
        cases = [
            ("", "list.csv: is empty; its first row names the columns from, to, standing, cost"),
            ("\n,,\n", "list.csv: is empty; its first row names the columns from, to, standing, cost"),
            (header, "list.csv: has no street; write one a row under the header"),
            ("from,to,cost\nA,B,3\n", "list.csv row 1: no column is named standing; the header has: from, to, cost"),
            ("A,B,must,5\n", "list.csv row 1: no column is named from; the header has: A, B, must, 5"),
            ("from,to,standing,cost,Cost\n", "list.csv row 1: two columns are named cost"),
            (header + good + "A,B,must,70000,6,Mill Lane\n", "list.csv row 3 (Mill Lane): cost 70000 is above 65535"),
            (header + "A,B,must,-5,6,Mill Lane\n", "list.csv row 2 (Mill Lane): cost -5 is below 0"),
            (header + "A,B,must,1.5,6,Mill Lane\n", "list.csv row 2 (Mill Lane): cost 1.5 is not a whole number"),
            (header + "A,B,must,1.05,6,Mill Lane\n", "list.csv row 2 (Mill Lane): cost 1.05 is not a whole number"),
            (header + "A,B,must,1.,6,Mill Lane\n", "list.csv row 2 (Mill Lane): cost 1. is not a whole number"),
            (header + "A,B,must,.0,6,Mill Lane\n", "list.csv row 2 (Mill Lane): cost .0 is not a whole number"),
            (header + 'A,B,must,"1,000",6,Elm\n', "list.csv row 2 (Elm): cost 1,000 is not a whole number"),
            (header + "A,B,must,1.000,6,Elm\n", "list.csv row 2 (Elm): cost 1.000 is not a whole number"),
            (header + "A,B,must,five,6,Mill Lane\n", "list.csv row 2 (Mill Lane): cost five is not a whole number"),
            (header + "A,B,must,\u0665,6,Mill Lane\n", "list.csv row 2 (Mill Lane): cost \u0665 is not a whole number"),
            (header + f"A,B,must,{'9' * 5000},6,Elm\n", f"list.csv row 2 (Elm): cost {'9' * 40}... is above 65535"),
            (header + f"A,B,must,-{'9' * 5000},6,Elm\n", f"list.csv row 2 (Elm): cost -{'9' * 39}... is below 0"),
            (
                header + f"A,B,must,5,6,{'x' * 140_000}\n",
                "list.csv row 2: a cell is too long (field larger than field limit (131072))",
            ),
            (header + "A,B,must,,6,Mill Lane\n", "list.csv row 2 (Mill Lane): cost is empty"),
            (header + ",B,must,5,6,Mill Lane\n", "list.csv row 2 (Mill Lane): from is empty"),
            (header + "A,,must,5,6,Mill Lane\n", "list.csv row 2 (Mill Lane): to is empty"),
            (header + "A,B,,5,6,Mill Lane\n", "list.csv row 2 (Mill Lane): standing is empty"),
            (header + "A,B,shall,5,6,Elm\n", "list.csv row 2 (Elm): standing shall is none of may, must and closed"),
            (header + "A,B,must,5,70000,Elm\n", "list.csv row 2 (Elm): checking 70000 is above 65535"),
            (
                header + "A,B,must,5,,Elm\n",
                "list.csv row 2 (Elm): checking is empty, and the street is must: write what the checking pass costs",
            ),
            (
                header + "A,B,may,5,6,Elm\n",
                "list.csv row 2 (Elm): checking is 6, and the street is may: leave it empty",
            ),
            (header + "A,B,closed,5,6,\n", "list.csv row 2: checking is 6, and the street is closed: leave it empty"),
            (
                header + "A,B,must,5,6,Mill, Lane\n",
                "list.csv row 2 (Mill): 7 cells under 6 columns; put a cell that holds a comma in quotes",
            ),
            (header + 'A,B,must,5,6,"Elm\n', "list.csv row 2: the quotes do not pair up (unexpected end of data)"),
            (
                header.encode() + good.encode() + b"A,B,must,5,6,M\xfchle\n",
                "list.csv row 3: a letter is not UTF-8 (byte 0xFC); save the file as CSV UTF-8",
            ),
        ]
        for data, message in cases:
            with self.subTest(message):
                self.refused(data, message)

    def test_what_is_no_text(self):
        self.refused(b"from,to\n\0,B\n", "list.csv row 2: is no text; save it as CSV UTF-8")
        self.refused(b"PK\x03\x04\x14\x00", "list.csv: is a spreadsheet's own file; save it as CSV UTF-8")
        self.refused(b"\xff\xfe\x00", "list.csv: is not UTF-16 text, as its first bytes say; save it as CSV UTF-8")

    def test_an_error_holds_its_place(self):
        error = self.refused(
            "from,to,standing,cost,street\nA,B,must,x,Elm\n", "list.csv row 2 (Elm): cost x is not a whole number"
        )
        self.assertEqual((error.file, error.row, error.column, error.street), ("list.csv", 2, "cost", "Elm"))

    def test_files_that_are_no_lists_by_their_length(self):
        with mock.patch("postman.streets.table.MOST_BYTES", 1000), self.assertRaises(ListError) as caught:
            read_bytes("/dev/zero")
        self.assertEqual(str(caught.exception), "/dev/zero: has more than 1,000 bytes, and is no list of streets")

    def test_missing_files(self):
        with self.assertRaises(ListError) as caught:
            read_table("no/such.csv", ())
        self.assertEqual(str(caught.exception), "no/such.csv: cannot be read: No such file or directory")

    def test_checking_of_0_is_none_where_the_street_is_not_must(self):
        data = b"from,to,standing,cost,checking\nA,B,must,5,6\nB,A,may,3,0\n"
        self.assertEqual([street.checking for street in read_csv("list.csv", None, data).streets], [6, None])


class Writing(unittest.TestCase):
    def test_drawn_lists_read_back(self):
        """Names with all that spreadsheets and separators make trouble with, written with each separator."""
        draw = Random(45)
        letters = "ab Z\"',;:\t#=-\u00e4\u03a9\U0001f697"

        def name() -> str:
            return name_of("x" + "".join(draw.choice(letters) for _ in range(draw.randrange(8))))

        for _ in range(200):
            corners = [name() for _ in range(draw.randrange(1, 9))]
            checked = draw.random() < 0.5
            streets = []
            for row in range(2, draw.randrange(3, 20)):
                standing = draw.choice(list(Standing))
                checking = draw.randrange(65536) if checked and standing is Standing.MUST else None
                ends = draw.choice(corners), draw.choice(corners)
                streets.append(Street(row, *ends, standing, draw.randrange(65536), checking, draw.choice(("", name()))))
            town = StreetList("list.csv", 2 if checked else 1, corners_in_order(tuple(streets)), tuple(streets))
            text = streets_text(town)
            self.assertEqual(read_csv("list.csv", None, encoded(text)), town)
            for separator in ";\t":
                other = io.StringIO(newline="")
                writer = csv.writer(other, delimiter=separator, lineterminator="\r\n", quoting=csv.QUOTE_ALL)
                writer.writerows(csv.reader(io.StringIO(text)))
                self.assertEqual(read_csv("list.csv", None, other.getvalue().encode("utf-16")), town)

    def test_what_is_written_reads_back(self):
        text = written(("from", "street"), [("Inn, the", 'say "B"'), ("A", None)])
        table = read_table("x.csv", ("from",), ("street",), text.encode())
        self.assertEqual(
            [row.cells for row in table.rows], [{"from": "Inn, the", "street": 'say "B"'}, {"from": "A", "street": ""}]
        )

    def test_a_mark_for_spreadsheets_where_letters_need_it(self):
        self.assertEqual(encoded("a\n"), b"a\n")
        self.assertEqual(encoded("\u00e4\n"), b"\xef\xbb\xbf\xc3\xa4\n")


if __name__ == "__main__":
    unittest.main()
