"""postman edit: a session at the prompt, from a script."""

import io
import shutil
import unittest
from contextlib import redirect_stderr, redirect_stdout
from pathlib import Path
from unittest import mock

from command import TOWN, TOWN_FOLDER, postman
from test_streets_list import Folder

from postman import Standing, plan_call, streets
from postman.command.edit import at_prompt
from postman.command.editor import COMMANDS, HELP, Editor
from postman.command.output import Output

LIST = """\
from,to,standing,cost,street
A,B,must,5,Elm Street
B,A,may,3,Oak Lane
B,A,may,9,Ash Road
A,B,closed,2,Route 66
"""
CHECKED = """\
from,to,standing,cost,checking,street
A,B,must,5,8,Elm Street
B,A,may,3,,Oak Lane
"""


class Editing(Folder):
    def session(self, *lines: str, text: str = LIST, status: int = 0, argv: tuple[str, ...] = ()) -> list[str]:
        """What a script prints, and on its last line what it failed for."""
        done = postman("edit", self.file("list.csv", text), *argv, stdin="".join(line + "\n" for line in lines))
        self.assertEqual(done.status, status, done)
        errors = done.err.replace(f"{self.folder}/", "").splitlines()
        return done.out.splitlines() + errors

    def test_closing_and_asking(self):
        self.assertEqual(
            self.session("ask", "close Oak Lane", "ask", "open Oak Lane", "ask"),
            [
                "cost 8, floor 8, gap 0 %",
                "Whole: all trees were tried, and no drive is cheaper.",
                "Oak Lane from B to A: closed, cost 3",
                "cost 14 (+6), floor 14 (+6), gap 0 %",
                "Whole: all trees were tried, and no drive is cheaper.",
                "Oak Lane from B to A: may, cost 3",
                "cost 8 (-6), floor 8 (-6), gap 0 %",
                "Whole: all trees were tried, and no drive is cheaper.",
            ],
        )

    def test_ways_of_naming_a_street(self):
        wanted = ["Oak Lane from B to A: may, cost 7"]
        for name in (
            "Oak Lane",
            "oak lane",
            "row 3",
            "Oak Lane from B to A",
            "Oak Lane from B",
            "oak lane to A",
            "  Oak  Lane",
        ):
            with self.subTest(name):
                self.assertEqual(self.session(f"cost {name} 7"), wanted)
        both = self.session("cost from B to A 7", status=1)
        self.assertIn("row 3 (Oak Lane) and row 4 (Ash Road) agree", both[-1])
        self.assertEqual(self.session("must Route 66"), ["Route 66 from A to B: must, cost 2"])

    def test_marks_returns_and_undo(self):
        lines = self.session(
            "mark", "cost Oak Lane 1", "mark 1", "cost Oak Lane 2", "return", "show", "return 1", "show", "undo", "show"
        )
        one = "Oak Lane from B to A: may, cost 1"
        self.assertEqual(
            lines, [one, "Oak Lane from B to A: may, cost 2", "nothing was changed", one, "nothing was changed"]
        )
        self.assertEqual(self.session("cost Oak Lane 1", "undo", "show"), [one, "nothing was changed"])
        self.assertIn("postman: line 1: there is nothing to take back", self.session("undo", status=2))

    def test_undo_takes_back_a_mark_too(self):
        lines = self.session("mark 2", "undo", "return 2", status=1)
        self.assertEqual(
            lines,
            [
                "postman: line 3: refusal 21, no mark: a mark's number is above 3, or the mark was never set. "
                "Use marks 0 to 3, and set a mark before returning to it."
            ],
        )

    def test_standings_and_costs(self):
        self.assertEqual(
            self.session("must Oak Lane", "may Oak Lane"),
            ["Oak Lane from B to A: must, cost 3", "Oak Lane from B to A: may, cost 3"],
        )
        self.assertEqual(
            self.session(
                "must Oak Lane 4",
                "checking Oak Lane 6",
                "cost Oak Lane 2",
                "close Oak Lane",
                "open Oak Lane",
                text=CHECKED,
            ),
            [
                "Oak Lane from B to A: must, cost 3, checking 4",
                "Oak Lane from B to A: must, cost 3, checking 6",
                "Oak Lane from B to A: must, cost 2, checking 6",
                "Oak Lane from B to A: closed, cost 2",
                "Oak Lane from B to A: may, cost 2",
            ],
        )
        opened = self.session("close Elm Street", "open Elm Street", text=CHECKED)
        self.assertEqual(opened[-1], "Elm Street from A to B: must, cost 5, checking 8")

    def test_numbers_and_letters_that_are_none(self):
        for line, message in [
            ("close row \u00b2", "row \u00b2 is no street of list.csv"),
            (f"cost Oak Lane {'9' * 5000}", f"{'9' * 40}... is above 65535"),
            ("cost Oak Lane \u00b2", "\u00b2 is not a whole number: write the street, then the number"),
            ("ask \u00b2", "\u00b2 is not a whole number: write ask, or ask and a budget"),
            ("mark x", "x is no mark: there are marks 0 to 3"),
        ]:
            self.assertEqual(self.session(line, status=2), [f"postman: line 1: {message}"])
        self.assertIn("line 1: refusal 9, budget", self.session(f"ask {'9' * 5000}", status=1)[0])
        self.assertIn("line 1: refusal 21, no mark", self.session(f"mark {'9' * 5000}", status=1)[0])
        done = postman("edit", self.file("list.csv", LIST), stdin=b"close \xff\n")
        self.assertEqual(done.status, 2)
        self.assertIn("line 1: \ufffd is no street of", done.err)

    def test_a_refused_change_alters_nothing(self):
        lines = self.session("cost Ash Road 3", status=1)
        wanted = "row 3 (Oak Lane) and row 4 (Ash Road) agree in from, to, standing and cost: delete one of them"
        self.assertEqual(lines, [f"postman: line 1: refusal 13, repeated: {wanted}"])
        editor = Editor(streets.read(self.file("list.csv", LIST)), None, None, Output())
        before = editor.plan.to_bytes()
        self.assertEqual(editor.obey("cost from B to A 1").status, 1)
        self.assertEqual((editor.plan.to_bytes(), editor.before), (before, []))

    def test_a_change_that_fails_for_one_street_changes_none(self):
        text = "from,to,standing,cost,checking,street\nA,B,must,5,8,Elm\nB,A,may,3,,Elm\n"
        editor = Editor(streets.read(self.file("list.csv", text)), None, None, Output())
        before = editor.plan.to_bytes()
        self.assertEqual(editor.obey("must Elm").status, 2)
        self.assertEqual((editor.plan.to_bytes(), editor.before), (before, []))

    def test_refusals_of_asking(self):
        lines = self.session("close Oak Lane", "close Ash Road", "ask", status=1)
        self.assertIn(
            "line 3: refusal 12, cut off: there is no way from B to A, the ends of row 2 (Elm Street)", lines[-1]
        )
        self.assertIn("refusal 9, budget:", self.session("ask 0", status=1)[-1])

    def test_faults_end_a_script(self):
        for line, wanted in [
            ("clsoe Oak Lane", "clsoe is no command; did you mean close?"),
            ("jump", "jump is no command; help lists them"),
            ("close", "name a street"),
            ("close Oak Lame", "Oak Lame is no street of list.csv; did you mean Oak Lane?"),
            ("close row 9", "row 9 is no street of list.csv"),
            ("open Oak Lane", "Oak Lane is not closed"),
            ("cost Oak Lane", "Lane is not a whole number: write the street, then the number"),
            ("cost Oak Lane 70000", "70000 is above 65535"),
            ("checking Elm Street 4", "list.csv has no checking costs: its list has no such column"),
            ("must Oak Lane 4", "list.csv has no checking costs: its list has no such column"),
            ("ask deep", "deep is not a whole number: write ask, or ask and a budget"),
            ("drive", "ask first"),
            ("mark one", "one is no mark: there are marks 0 to 3"),
            ("at tue 9:30", "no market days are known: start with --windows CSV"),
            ("save", "name the file to be written"),
        ]:
            with self.subTest(line):
                self.assertEqual(self.session(line, "ask", status=2), [f"postman: line 1: {wanted}"])
        asked = self.session("must Oak Lane", text=CHECKED, status=2)
        self.assertEqual(
            asked, ["postman: line 1: what does it cost to check Oak Lane from B to A? write: must STREET CHECKING"]
        )

    def test_comments_and_blank_lines(self):
        self.assertEqual(self.session("# a comment", "", "  ", "show"), ["nothing was changed"])

    def test_quit_ends_a_script(self):
        self.assertEqual(self.session("quit", "jump"), [])

    def test_the_drive_of_the_plan_as_it_is_now(self):
        lines = self.session("close Oak Lane", "ask", "drive")
        self.assertEqual([line.split()[1:3] for line in lines[-3:-1]], [["*", "Elm"], ["Ash", "Road"]])

    def test_saving(self):
        target = self.folder / "new.csv"
        self.session("close Oak Lane", f"save {target}")
        self.assertEqual(target.read_text(), LIST.replace("may,3", "closed,3"))
        self.assertEqual(Path(self.folder / "list.csv").read_text(), LIST)
        lines = self.session(f"save {target}", status=2)
        self.assertEqual(lines[-1], "postman: line 1: new.csv: is there already; save new.csv over writes over it")
        self.session("cost Ash Road 4", f"save {target} over")
        self.assertEqual(target.read_text(), LIST.replace("may,9", "may,4"))
        plan = self.folder / "new.plan"
        self.session("close Oak Lane", f"save {plan}")
        self.assertEqual(streets.open_list(str(plan)).streets[1].standing, Standing.CLOSED)

    def test_what_is_saved_is_the_plan_that_was_asked(self):
        town = str(self.folder / "town")
        shutil.copytree(TOWN_FOLDER, town)
        for name, others in [("bridges.csv", "bridges-corners.csv"), ("streets-2.csv", "corners-2.csv")]:
            target = str(Path(town) / name)
            lines = ["close Old Bridge", "ask 1000", f"save {target}"]
            done = postman("edit", f"{town}/streets.csv", stdin="\n".join(lines))
            self.assertEqual(done.err, f"postman: {target} and {town}/{others} are written\n")
            saved = plan_call(streets.open_list(target).file, 1000)
            self.assertIn(f"cost {saved.cost:,}, floor {saved.floor:,},", done.out)
            # The corners stand there, and are not written again.
            done = postman("edit", target, stdin=f"open Old Bridge\nsave {target} over\n")
            self.assertEqual(done.err, f"postman: {target} is written\n")
            self.assertEqual(streets.open_list(target).file, streets.open_list(f"{town}/streets.csv").file)

    def test_market_days(self):
        windows = self.file("windows.csv", "street,day,start,end\nOak Lane,tue,8:00,12:00\nElm Street,wed,8:00,12:00\n")
        lines = self.session("ask", "at tue 09:30", "ask", "at", "ask", argv=("--windows", windows))
        self.assertEqual([line.split(",")[0] for line in lines[::2]], ["cost 8", "cost 14 (+6)", "cost 8 (-6)"])
        refused = self.session("at wed 09:30", "ask", argv=("--windows", windows), status=1)
        self.assertIn("refusal 20, must shut: streets that must be checked are shut", refused[0])
        self.assertEqual(
            self.session("at noon", argv=("--windows", windows), status=2)[0],
            "postman: line 1: 'noon' is no departure: write it as \"tue 09:30\"",
        )

    def test_the_town(self):
        done = postman("edit", TOWN, "--budget", "100", stdin="ask\n")
        self.assertIn(f"cost {plan_call(streets.open_list(TOWN).file, 100).cost:,}", done.out)
        done = postman("edit", TOWN, "--windows", str(TOWN_FOLDER / "windows.csv"), stdin="at tue 9:30\nask 10\n")
        self.assertEqual(done.status, 0)

    def test_help_tells_of_every_command(self):
        for command in COMMANDS:
            if command != "help":
                self.assertRegex(HELP, f"(?m)^{command}\\b")
        self.assertEqual("\n".join(self.session("help")), HELP)
        self.assertLessEqual(max(map(len, HELP.splitlines())), 80)


class Prompt(Folder):
    """At a terminal what fails is said, and the session goes on."""

    def typed(self, *lines: str) -> tuple[str, str]:
        editor = Editor(streets.read(self.file("list.csv", LIST)), None, None, Output())
        out, err = io.StringIO(), io.StringIO()
        answers = iter(lines)

        def input_line(prompt: str) -> str:
            try:
                return next(answers)
            except StopIteration:
                raise EOFError from None

        with mock.patch("builtins.input", input_line), redirect_stdout(out), redirect_stderr(err):
            self.assertEqual(at_prompt(editor), 0)
        return out.getvalue(), err.getvalue()

    def test_faults_do_not_end_it(self):
        out, err = self.typed("jump", "close Oak Lane", "show")
        self.assertEqual(out.splitlines()[:2], ["Oak Lane from B to A: closed, cost 3"] * 2)
        self.assertIn("jump is no command", err)

    def test_changes_are_not_left_unasked(self):
        out, err = self.typed("close Oak Lane", "quit", "show", "quit", "jump")
        self.assertIn("changes are not saved: save FILE keeps them, and quit once more leaves them", err)
        self.assertEqual(out.count("closed"), 2)
        self.assertNotIn("jump", err)
        self.assertNotIn("not saved", self.typed("quit")[1])
        self.assertNotIn("not saved", self.typed("close Oak Lane", "undo", "quit")[1])
        saved = f"save {self.folder}/a.csv"
        self.assertIn("not saved", self.typed("mark", "close Oak Lane", saved, "return", "quit")[1])
        # The end of input is a wish to end, and no more.
        self.assertEqual(self.typed("close Oak Lane")[1].count("not saved"), 1)

    def test_completion(self):
        editor = Editor(streets.read(self.file("list.csv", LIST)), None, None, Output())
        self.assertEqual(editor.completions("c"), ["close", "cost", "checking"])
        self.assertEqual(editor.completions("close o"), ["close Oak Lane"])


if __name__ == "__main__":
    unittest.main()
