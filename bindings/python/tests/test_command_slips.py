"""Files with slips of the pen, drawn: whatever stands in them, the command answers, refuses or says what is wrong."""

import unittest
from collections.abc import Callable

from command import TOWN, TOWN_FOLDER, postman
from drawn import Random
from repository import ROOT
from test_streets_list import Folder

SMALL = b"from,to,standing,cost,checking,street\nA,B,must,4,5,Mill\nB,A,may,3,,\n"
MAP = (
    b'{"type":"FeatureCollection","features":[{"type":"Feature","properties":{"name":"X","oneway":"no","s":7},'
    b'"geometry":{"type":"LineString","coordinates":[[0,0],[0.001,0.001]]}}]}'
)

SLIPS = (
    *(b",", b";", b"\t", b'"', b"\n", b"\r", b"\r\n", b"\0", b"\xff", b"\xef\xbb\xbf", b"PK\x03\x04", b"\x1b[31m"),
    *(b"-1", b"0", b"1.5", b"1e400", b"NaN", b"Infinity", b"9" * 5000, b"70000", b"-", b":", b"24:00", b"mon-"),
    *(b"null", b"true", b"[", b"{", b"]", b"}", b"[]", b"{}", b"[" * 3000, b'"features":7', b'"properties":[1]'),
    *(b"must", b"may", b"closed", b"\xc3\xa9", b"\xc2\xb2", b"\xed\xa0\x80", b"\\ud800", b"\xe2\x80\xae"),
)


def slipped(random: Random, data: bytes) -> bytes:
    """A file with one to three slips."""
    for _ in range(random.within(1, 3)):
        start = random.within(0, len(data))
        end = min(len(data), start + random.within(0, 6))
        slip = SLIPS[random.within(0, len(SLIPS) - 1)]
        lines = data.split(b"\n")
        line = random.within(0, len(lines) - 1)
        kind = random.within(0, 3)
        if kind == 0:
            data = data[:start] + slip + data[end:]
        elif kind == 1:
            data = data[:start] + data[end:]
        elif kind == 2:
            data = b"\n".join([*lines[:line], lines[random.within(0, len(lines) - 1)], *lines[line:]])
        else:
            cells = lines[line].split(b",")
            cells[random.within(0, len(cells) - 1)] = slip
            data = b"\n".join([*lines[:line], b",".join(cells), *lines[line + 1 :]])
    return data


class Slips(Folder):
    def drawn(self, seed: int, count: int, name: str, files: list[bytes], calls: Callable[[str], list[list[str]]]):
        random = Random(seed)
        statuses = set()
        for _ in range(count):
            data = slipped(random, files[random.within(0, len(files) - 1)])
            path = self.file(name, "")
            with open(path, "wb") as file:
                file.write(data)
            choices = calls(path)
            argv = choices[random.within(0, len(choices) - 1)]
            with self.subTest(argv=argv, data=data):
                done = postman(*argv, stdin="ask 10\nshow\n")
                self.assertIn(done.status, (0, 1, 2))
                self.assertEqual(done.status == 0 or done.err.startswith(("postman: ", "usage: ")), True, done.err)
                self.assertNotIn("\x1b", done.out + done.err)
                statuses.add(done.status)
        self.assertGreater(len(statuses), 1)

    def test_street_lists(self):
        files = [SMALL, SMALL.replace(b",checking", b"").replace(b",5,", b",").replace(b",3,,", b",3,")]
        files.append((TOWN_FOLDER / "streets.csv").read_bytes())
        budget = ("--budget", "10")

        def calls(path: str) -> list[list[str]]:
            picture = str(self.folder / "town.svg")
            return [
                ["drive", path, *budget],
                ["drive", path, *budget, "--json"],
                ["show", path, "--rows", "--picture", picture],
                ["make", path, "-o", str(self.folder / "made.plan")],
                ["cars", path, *budget],
                ["districts", path, *budget],
                ["edit", path, *budget],
            ]

        self.drawn(1, 140, "streets.csv", files, calls)

    def test_maps(self):
        files = [MAP, (TOWN_FOLDER / "map.geojson").read_bytes()]

        def calls(path: str) -> list[list[str]]:
            made = ["make", path, "-o", str(self.folder / "made.csv"), "--force"]
            return [made, [*made, "--cost", "s"], [*made, "--must", "name=X", "--checking", "s"], ["drive", path]]

        self.drawn(2, 200, "map.geojson", files, calls)

    def test_tables_beside_a_list(self):
        for seed, name, file, words in [
            (3, "corners.csv", "corners.csv", ["show", TOWN, "--picture", "PICTURE", "--corners"]),
            (4, "windows.csv", "windows.csv", ["drive", TOWN, "--budget", "10", "--at", "tue 06:30", "--windows"]),
            (5, "first.csv", "first.csv", ["cars", TOWN, "--budget", "10", "--second", "SECOND", "--first"]),
        ]:
            of_words = {"PICTURE": str(self.folder / "town.svg"), "SECOND": str(TOWN_FOLDER / "second.csv")}
            argv = [of_words.get(word, word) for word in words]
            self.drawn(seed, 40, name, [(TOWN_FOLDER / file).read_bytes()], lambda path: [[*argv, path]])

    def test_plans_drives_and_pairs(self):
        plans = [(ROOT / "examples" / f"{name}.plan").read_bytes() for name in ("town", "case_a", "town_checked")]
        self.drawn(6, 60, "slip.plan", plans, lambda path: [["drive", path, "--budget", "10"], ["show", path]])
        small = self.file("small.csv", SMALL.decode())
        drives = [b"0\n1\n", b"arc,street,from,to\n0,Mill,A,B\n1,,B,A\n", b"from,to\nA,B\nB,A\n", b'{"drive": [0, 1]}']
        self.drawn(7, 100, "drive.txt", drives, lambda path: [["judge", small, path]])
        self.drawn(8, 40, "pairs.csv", [b"from,to\nA,B\nB,A\n"], lambda path: [["distances", small, path]])


if __name__ == "__main__":
    unittest.main()
