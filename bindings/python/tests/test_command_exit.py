"""The exit status, what goes where, and what only a terminal gets."""

import os
import pty
import subprocess
import sys
import unittest

from command import TOWN, TOWN_FOLDER, environment, from_shell, postman
from repository import ROOT
from test_streets_list import Folder

from postman import __version__

CASE_A = str(ROOT / "examples" / "case_a.plan")
CUT_OFF = str(ROOT / "examples" / "cut_off.plan")


class Status(Folder):
    def check(self, status: int, *argv: str, err: str = "", stdin: str = "") -> None:
        done = postman(*argv, stdin=stdin)
        self.assertEqual(done.status, status, done)
        self.assertEqual(done.out, "")
        self.assertIn(err, done.err)
        self.assertNotIn("Traceback", done.err)

    def test_answers(self):
        for argv in (["--help"], ["--version"], ["drive", CASE_A], ["drive", "--help"], ["show", CUT_OFF]):
            done = postman(*argv)
            self.assertEqual((done.status, done.err), (0, ""))
            self.assertTrue(done.out)
        self.assertEqual(postman("--version").out, f"postman {__version__}\n")

    def test_refusals_have_number_word_and_what_to_do(self):
        way = "there is no way from corner 1 to corner 0, the ends of arc 0, which must be driven: "
        way += "open or add a street on the way"
        self.check(1, "drive", CUT_OFF, err=f"postman: {CUT_OFF}: refusal 12, cut off: {way}\n")
        sentence = "the budget is 0 or above 1,000,000. Choose a budget from 1 to 1,000,000 trees."
        self.check(1, "drive", CASE_A, "--budget", "0", err=f"refusal 9, budget: {sentence}\n")
        self.check(1, "drive", CASE_A, "--budget", "1000001", err="refusal 9, budget:")
        self.check(1, "drive", self.file("torn.plan", b"\x10"), err="refusal 1, torn:")
        twice = self.file("list.csv", "from,to,standing,cost\nA,B,must,1\nA,B,must,1\n")
        for subcommand in ("drive", "show", "trees", "budgets", "make", "edit"):
            self.check(1, subcommand, twice, err="list.csv: refusal 13, repeated: row 2 (A to B) and row 3 (A to B)")

    def test_wrong_usage(self):
        self.check(2, err="usage: postman SUBCOMMAND")
        self.check(2, "drvie", err="postman: drvie is no subcommand; did you mean drive?")
        self.check(2, "drive", err="postman drive: error: the following arguments are required: LIST")
        self.check(2, "drive", CASE_A, "--bugdet", "1", err="unrecognized arguments: --bugdet 1")
        self.check(2, "drive", CASE_A, "--budg", "1", err="unrecognized arguments: --budg 1")
        self.check(2, "drive", CASE_A, "--budget", "x", err="x is not a whole number")
        self.check(2, "drive", CASE_A, "--json", "--csv", err="not allowed with argument --json")
        self.check(2, "drive", CASE_A, "--at", "noon", err="'noon' is no departure")
        self.check(2, "drive", CASE_A, "--at", "tue 9:30", err="postman drive: --windows and --at go together")
        self.check(2, "drive", CASE_A, "--windows", "w.csv", err="postman drive: --windows and --at go together")
        self.check(2, "drive", CASE_A, "--gpx", "--origin", "here", err="here is no place")
        self.check(2, "drive", "no/such.csv", err="postman: no/such.csv: cannot be read: No such file or directory\n")
        self.check(2, "drive", str(self.folder), err="cannot be read: Is a directory")
        self.check(2, "drive", "-", err="postman: standard input: is empty")
        path = self.file("list.csv", "from,to,standing,cost,street\nA,B,must,70000,Mill Lane\n")
        self.check(2, "drive", path, err="list.csv row 2 (Mill Lane): cost 70000 is above 65535\n")

    def test_as_a_module(self):
        done = from_shell("drive", CUT_OFF, stdout=subprocess.PIPE, stderr=subprocess.PIPE)
        out, err = done.communicate()
        self.assertEqual((done.returncode, out), (1, b""))
        self.assertIn(b"refusal 12", err)

    def test_a_closed_pipe(self):
        for argv in (
            ["drive", TOWN],
            ["--help"],
            ["drive", "--help"],
            ["drive", TOWN, "--json"],
            ["completion", "bash"],
        ):
            with self.subTest(argv):
                read, write = os.pipe()
                os.close(read)
                done = from_shell(*argv, stdout=write, stderr=subprocess.PIPE)
                os.close(write)
                err = done.communicate()[1]
                self.assertEqual((done.returncode, err), (141, b""))

    def test_writing_that_fails(self):
        with open("/dev/full", "wb") as full:
            done = from_shell("drive", TOWN, stdout=full, stderr=subprocess.PIPE)
            err = done.communicate()[1]
        self.assertEqual((done.returncode, err), (2, b"postman: writing failed: No space left on device\n"))

    def test_no_standard_output(self):
        words = [sys.executable, "-m", "postman", "drive", TOWN]
        done = subprocess.run(["sh", "-c", '"$@" >&-', "sh", *words], env=environment(), capture_output=True)
        self.assertEqual((done.returncode, done.stderr), (141, b""))

    def test_letters_that_the_terminal_does_not_have(self):
        path = self.file("list.csv", "from,to,standing,cost,street\nA,B,must,1,M\u00fchlgasse\nB,A,may,1,\n")
        done = from_shell("drive", path, stdout=subprocess.PIPE, stderr=subprocess.PIPE)
        out, err = done.communicate()
        self.assertIn("M\u00fchlgasse", out.decode())
        words = [sys.executable, "-m", "postman", "drive", path]
        plain = subprocess.run(words, env=environment(PYTHONIOENCODING="ascii"), capture_output=True)
        self.assertEqual((plain.returncode, plain.stderr), (0, b""))
        self.assertIn(b"M\\xfchlgasse", plain.stdout)


class Quiet(Folder):
    def test_notes_are_on_standard_error_unless_quiet(self):
        target = str(self.folder / "a.plan")
        done = postman("make", TOWN, "-o", target)
        self.assertEqual((done.status, done.out), (0, ""))
        self.assertIn("62 corners, 197 streets", done.err)
        self.assertEqual(postman("make", TOWN, "-o", target, "--quiet"), (0, "", ""))

    def test_refusals_are_said_all_the_same(self):
        self.assertIn("refusal 12", postman("drive", CUT_OFF, "-q").err)


def on_terminal(*argv: str, stdout: bool = False, stderr: bool = False, **variables: str) -> tuple[bytes, bytes]:
    """Standard output and standard error of the command, where some of them are terminals."""
    env = {name: value for name, value in environment(TERM="xterm").items() if name != "NO_COLOR"} | variables
    ends = {name: pty.openpty() if terminal else os.pipe() for name, terminal in (("out", stdout), ("err", stderr))}
    process = subprocess.Popen(
        [sys.executable, "-m", "postman", *argv],
        env=env,
        stdout=ends["out"][1],
        stderr=ends["err"][1],
        stdin=subprocess.DEVNULL,
    )
    found = []
    for name in ("out", "err"):
        os.close(ends[name][1])
    for name in ("out", "err"):
        data = b""
        while True:
            try:
                chunk = os.read(ends[name][0], 65536)
            except OSError:
                break
            if not chunk:
                break
            data += chunk
        os.close(ends[name][0])
        found.append(data)
    process.wait()
    return found[0], found[1]


class Terminal(unittest.TestCase):
    def test_colours_only_on_a_terminal(self):
        argv = ("drive", TOWN, "--budget", "10")
        self.assertIn(b"\x1b[32m", on_terminal(*argv, stdout=True)[0])
        self.assertNotIn(b"\x1b", on_terminal(*argv)[0])
        self.assertNotIn(b"\x1b", on_terminal(*argv, stdout=True, NO_COLOR="1")[0])
        self.assertNotIn(b"\x1b", on_terminal(*argv, stdout=True, TERM="dumb")[0])

    def test_files_have_no_colours(self):
        for form in ("--json", "--csv"):
            self.assertNotIn(b"\x1b", on_terminal("drive", TOWN, "--budget", "10", form, stdout=True)[0])

    def test_progress_bars_only_on_a_terminal(self):
        argv = ("districts", str(TOWN_FOLDER / "districts" / "hill.csv"), str(TOWN_FOLDER / "districts" / "mills.csv"))
        out, err = on_terminal(*argv, stderr=True)
        self.assertIn(b"hill  [####", err)
        self.assertNotIn(b"\x1b", out)
        self.assertEqual(on_terminal(*argv)[1], b"")
        self.assertEqual(on_terminal(*argv, "--quiet", stderr=True)[1], b"")


if __name__ == "__main__":
    unittest.main()
