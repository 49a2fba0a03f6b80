"""Help, the man page and the completion of shells."""

import re
import subprocess
import unittest
from unittest import mock

from command import postman
from repository import PACKAGE

from postman.command import SUBCOMMANDS, parser_of

MAN = PACKAGE / "man" / "postman.1"


def options_of(name: str) -> list[str]:
    return [
        option for option in parser_of(name)._option_string_actions if option.startswith("--") and option != "--help"
    ]


class Help(unittest.TestCase):
    def test_each_subcommand_has_help_with_an_example(self):
        for name in SUBCOMMANDS:
            with self.subTest(name), mock.patch.dict("os.environ", COLUMNS="80"):
                done = postman(name, "--help")
                self.assertEqual((done.status, done.err), (0, ""))
                self.assertLessEqual(max(map(len, done.out.splitlines())), 80)
                example = done.out.split("example:\n")[1]
                self.assertIn(f"postman {name} ", example)

    def test_options_in_examples_are_taken(self):
        for name in SUBCOMMANDS:
            example = postman(name, "--help").out.split("example:\n")[1]
            for option in re.findall(r"--[a-z-]+", example):
                self.assertIn(option, options_of(name))

    def test_the_overview_lists_all(self):
        with mock.patch.dict("os.environ", COLUMNS="80"):
            text = postman("--help").out
        for name, summary in SUBCOMMANDS.items():
            self.assertRegex(text, f"(?m)^  {name} +{re.escape(summary)}$")
        self.assertEqual((postman("help").out, postman("-h").out), (text, text))


class ManPage(unittest.TestCase):
    def setUp(self):
        self.text = MAN.read_text().replace("\\-", "-")

    def test_it_names_every_subcommand_and_option(self):
        for name in SUBCOMMANDS:
            self.assertRegex(self.text, f"(?m)^\\.BR {name} ")
            for option in options_of(name):
                if option != "--output":
                    self.assertRegex(self.text, f"{option}\\b", f"{name} {option}")

    def test_it_names_no_option_that_is_not_there(self):
        known = {option for name in SUBCOMMANDS for option in options_of(name)} | {"--help", "--version"}
        self.assertLessEqual(set(re.findall(r"--[a-z][a-z-]+", self.text)), known)

    def test_it_is_well_formed(self):
        try:
            done = subprocess.run(["groff", "-man", "-Tascii", "-ww", "-z", MAN], capture_output=True, text=True)
        except FileNotFoundError:
            self.skipTest("groff is not installed")
        self.assertEqual((done.returncode, done.stderr), (0, ""))


class Completion(unittest.TestCase):
    def complete(self, *words: str) -> list[str]:
        script = postman("completion", "bash").out
        listed = " ".join(f"'{word}'" for word in words)
        script += (
            f"\nCOMP_WORDS=({listed}); COMP_CWORD={len(words) - 1}; _postman; printf '%s\\n' \"${{COMPREPLY[@]}}\"\n"
        )
        done = subprocess.run(["bash", "-u", "-c", script], capture_output=True, text=True)
        self.assertEqual((done.returncode, done.stderr), (0, ""))
        return done.stdout.split()

    def test_subcommands(self):
        self.assertEqual(self.complete("postman", "dr"), ["drive"])
        self.assertEqual(self.complete("postman", "d"), ["drive", "distances", "desk", "districts"])
        self.assertEqual(self.complete("postman", ""), [*SUBCOMMANDS, "--help", "--version"])

    def test_options_and_files(self):
        self.assertEqual(self.complete("postman", "drive", "x.csv", "--g"), ["--geojson", "--gpx"])
        self.assertEqual(self.complete("postman", "drive", "x"), [])
        self.assertEqual(self.complete("postman", "completion", "b"), ["bash"])
        for name in SUBCOMMANDS:
            self.assertEqual(self.complete("postman", name, "--"), ["--help", *options_of(name)])

    def test_other_shells(self):
        self.assertEqual(postman("completion", "csh").status, 2)


if __name__ == "__main__":
    unittest.main()
