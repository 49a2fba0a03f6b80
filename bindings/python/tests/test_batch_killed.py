"""A batch that is killed at random moments, and started again until it ends, gives what one clean run gives."""

import json
import os
import random
import signal
import subprocess
import time
import unittest
from contextlib import suppress
from pathlib import Path

from command import from_shell, postman
from drawn import write_towns
from repository import ROOT, example
from test_streets_list import Folder

SEED = 47
PLANS = 400
SLOW = ("z0.plan", "z1.plan")
SECONDS = 60
"""How long anything may take before it has failed."""


def without_seconds(path: Path) -> list[str]:
    """The results' lines in the order of their files, without what two runs may differ in."""
    lines = [json.loads(line) for line in path.read_bytes().splitlines()]
    return sorted(json.dumps({**line, "seconds": line["seconds"] is None}) for line in lines)


def lines_of(path: Path) -> int:
    return path.read_bytes().count(b"\n") if path.exists() else 0


def alive(process: int) -> bool:
    try:
        with open(f"/proc/{process}/stat") as file:
            return file.read().rpartition(")")[2].split()[0] != "Z"
    except FileNotFoundError:
        return False


class Killed(Folder):
    def setUp(self):
        super().setUp()
        self.plans = self.folder / "plans"
        write_towns(self.plans, PLANS)
        for number in range(5):
            (self.plans / f"town-00{number}99x.plan").write_bytes(example("cut_off.plan")[: 4 + 3 * number])
        self.clean, self.killed = self.folder / "clean.jsonl", self.folder / "killed.jsonl"

    def start(self) -> subprocess.Popen:
        nothing = subprocess.DEVNULL
        argv = ["batch", self.plans, "-o", self.killed, "--jobs", "2", "--quiet"]
        return from_shell(*argv, stdout=nothing, stderr=nothing, start_new_session=True)

    def until(self, happened) -> None:
        last = time.monotonic() + SECONDS
        while not happened():
            self.assertLess(time.monotonic(), last)
            time.sleep(0.0005)

    def test_nothing_is_lost_and_nothing_is_there_twice(self):
        self.assertEqual(postman("batch", self.plans, "-o", self.clean).status, 1)
        chance = random.Random(SEED)
        kills, done = 0, 0
        while True:
            run = self.start()
            # After some more lines, or while it begins; it may end before.
            more = chance.choice([0, *range(1, PLANS // 3)])
            self.until(lambda: lines_of(self.killed) >= done + more or run.poll() is not None)
            if not more:
                time.sleep(chance.uniform(0, 0.3))
            workers = children_of(run.pid)
            if run.poll() is None:
                # The process that writes, and its workers before it or not.
                for process in workers if chance.random() < 0.5 else []:
                    with suppress(ProcessLookupError):
                        os.kill(process, signal.SIGKILL)
                run.kill()
            if run.wait() != -signal.SIGKILL:
                break
            kills += 1
            self.until(lambda: not any(map(alive, workers)))
            if chance.random() < 0.5 and self.killed.exists():
                # As a machine leaves it that lost its power: the last line torn.
                data = self.killed.read_bytes()
                last = len(data) - data.rfind(b"\n", 0, -1) - 1
                os.truncate(self.killed, len(data) - chance.randrange(0, max(last, 1)))
            done = lines_of(self.killed)
        self.assertGreaterEqual(kills, 2)
        self.assertEqual(run.returncode, 1)
        self.assertEqual(without_seconds(self.killed), without_seconds(self.clean))
        self.assertEqual(lines_of(self.killed), PLANS + 5)

    def test_an_interrupt_says_how_to_go_on(self):
        # Some that take long, so that it has not ended before it is interrupted.
        for name in SLOW:
            (self.plans / name).write_bytes((ROOT / "tests" / "plans" / "climbed_many_links.plan").read_bytes())
        argv = ["batch", self.plans, "-o", self.killed, "--jobs", "2"]
        run = from_shell(*argv, stdout=subprocess.PIPE, stderr=subprocess.PIPE, start_new_session=True)
        self.until(lambda: lines_of(self.killed) >= 3 or run.poll() is not None)
        # As a terminal does it, to the whole group.
        os.killpg(run.pid, signal.SIGINT)
        out, err = run.communicate(timeout=SECONDS)
        self.assertEqual((run.returncode, out), (130, b""))
        self.assertEqual(err, b"postman: stopped; the same command goes on from here\n")
        self.assertEqual(self.start().wait(SECONDS), 1)
        self.assertEqual(lines_of(self.killed), PLANS + 5 + len(SLOW))


def children_of(process: int) -> list[int]:
    try:
        with open(f"/proc/{process}/task/{process}/children") as file:
            return list(map(int, file.read().split()))
    except FileNotFoundError:
        return []


if __name__ == "__main__":
    unittest.main()
