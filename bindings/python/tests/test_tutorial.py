"""Every command of docs/TUTORIAL.md is run, and what it shows is compared.

`python3 test_tutorial.py --write` writes what the commands show now into the tutorial.
"""

import re
import shutil
import subprocess
import sys
import tempfile
import unittest
from pathlib import Path
from typing import NamedTuple

from command import environment
from repository import ROOT

TUTORIAL = ROOT / "docs" / "TUTORIAL.md"
OPEN, CLOSE = "```console", "```"
PROMPT = "$ "
HERE_END = "END"
"""What ends a command's input that is shown with it."""


class Shown(NamedTuple):
    """A command with its input, and what the tutorial shows of it."""

    line: int
    command: str
    output: str


def shown(text: str) -> list[Shown]:
    """The commands of a text, in their order."""
    found: list[Shown] = []
    inside = here = False
    for number, line in enumerate(text.splitlines(keepends=True), 1):
        if not inside:
            inside = line.rstrip() == OPEN
        elif here:
            found[-1] = found[-1]._replace(command=found[-1].command + line)
            here = line.rstrip() != HERE_END
        elif line.rstrip() == CLOSE:
            inside = False
        elif line.startswith(PROMPT):
            found.append(Shown(number, line[len(PROMPT) :], ""))
            here = line.rstrip().endswith(f"<<{HERE_END}")
        else:
            found[-1] = found[-1]._replace(output=found[-1].output + line)
    return found


class Desk:
    """A copy of the examples, and a shell in which `postman` is on the path."""

    def __enter__(self) -> "Desk":
        self.folder = tempfile.TemporaryDirectory()
        root = Path(self.folder.name)
        shutil.copytree(ROOT / "examples", root / "examples")
        program = root / "bin" / "postman"
        program.parent.mkdir()
        program.write_text(f'#!/bin/sh\nexec "{sys.executable}" -m postman "$@"\n')
        program.chmod(0o755)
        path = environment()["PATH"]
        self.env = environment(PATH=f"{program.parent}:{path}", COLUMNS="80", LC_ALL="C.UTF-8")
        self.at = root / "examples"
        return self

    def __exit__(self, *_: object) -> None:
        self.folder.cleanup()

    def run(self, command: str) -> str:
        """What a command shows, on standard output and standard error."""
        done = subprocess.run(
            ["bash", "-c", command],
            cwd=self.at,
            env=self.env,
            stdout=subprocess.PIPE,
            stderr=subprocess.STDOUT,
            text=True,
        )
        return done.stdout


class Tutorial(unittest.TestCase):
    def test_every_command_shows_what_the_tutorial_says(self):
        commands = shown(TUTORIAL.read_text())
        self.assertGreater(len(commands), 30)
        with Desk() as desk:
            for step in commands:
                with self.subTest(line=step.line, command=step.command):
                    told = desk.run(step.command)
                    if told != step.output and "timeout" in step.command:
                        # A busy machine takes longer than a reader would wait.
                        told = desk.run(re.sub(r"(timeout -s INT \d+)", r"\g<1>0", step.command))
                    self.assertEqual(told, step.output)

    def test_every_subcommand_is_in_it(self):
        from postman.command import SUBCOMMANDS

        words = [step.command.splitlines()[0].split() for step in shown(TUTORIAL.read_text())]
        called = {after for line in words for word, after in zip(line, line[1:]) if word == "postman"}
        self.assertEqual(called, set(SUBCOMMANDS) - {"completion"})


def write() -> None:
    """The tutorial anew: text and commands as they stand, and what the commands show now."""
    lines: list[str] = []
    text = TUTORIAL.read_text()
    steps = {step.line: step for step in shown(text)}
    inside = False
    skip = 0
    with Desk() as desk:
        for number, line in enumerate(text.splitlines(keepends=True), 1):
            if number in steps:
                step = steps[number]
                skip = step.command.count("\n") - 1
                lines.append(PROMPT + step.command + desk.run(step.command))
            elif skip:
                skip -= 1
            elif not inside or line.rstrip() == CLOSE:
                lines.append(line)
            if line.rstrip() in (OPEN, CLOSE):
                inside = line.rstrip() == OPEN
    TUTORIAL.write_text("".join(lines))


if __name__ == "__main__":
    write() if "--write" in sys.argv else unittest.main()
