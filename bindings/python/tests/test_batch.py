"""Many plans: what is worked on, what stands in the results, and what is told."""

import json
import os
import pty
import subprocess
import sys
import types
import unittest
from collections import Counter
from textwrap import dedent
from unittest import mock

from command import TOWN, environment, from_shell, postman
from drawn import Random, drawn_town, write_towns
from repository import CASE_A, example, kept_plans
from test_streets_list import Folder

from postman import Answer, Refusal, plan_call
from postman.batch.cluster import by_cluster
from postman.batch.inputs import inputs_of
from postman.batch.processes import by_processes
from postman.batch.result import Result, Undone
from postman.batch.results_file import ResultsFile
from postman.batch.work import work
from postman.streets import ListError

LIST = b"from,to,standing,cost\nA,B,must,5\nB,A,may,3\n"
BAD_LIST = b"from,to,standing,cost\nA,B,must,70000\n"


def children() -> list[int]:
    """The processes that this one began and that are there yet."""
    with open(f"/proc/self/task/{os.getpid()}/children") as file:
        return list(map(int, file.read().split()))


class Batch(Folder):
    def results(self, name: str = "results.jsonl") -> dict[str, dict]:
        """The results by their files, none of which may be there twice."""
        lines = [json.loads(line) for line in (self.folder / name).read_bytes().splitlines()]
        found = {line["file"].removeprefix(f"{self.folder}/"): line for line in lines}
        self.assertEqual(len(found), len(lines))
        return found

    def batch(self, *argv: str, status: int = 0, err: str = "") -> str:
        done = postman("batch", *argv, "-o", str(self.folder / "results.jsonl"))
        self.assertEqual((done.status, done.err.replace(f"{self.folder}/", "")), (status, err), done)
        return done.out


class Answers(Batch):
    def test_they_are_those_of_the_plan_call(self):
        plans = [path for path in kept_plans() if path.parent.name == "examples" or "climbed" not in path.name]
        write_towns(self.folder, 5)
        self.batch(*map(str, plans), str(self.folder), "--budget", "1000", "--jobs", "2", status=1)
        results = self.results()
        self.assertEqual(len(results), len(plans) + 5)
        for path in [*plans, *self.folder.glob("*.plan")]:
            result = results[str(path).removeprefix(f"{self.folder}/")]
            self.assertGreaterEqual(result["seconds"], 0)
            self.assertEqual(result["budget"], 1000)
            try:
                answer = plan_call(path.read_bytes(), 1000)
            except Refusal as refusal:
                self.assertEqual(result["refusal"], {"number": refusal.number, "word": refusal.word})
                self.assertNotIn("cost", result)
                continue
            for name in ("cost", "floor", "trees", "whole", "parts"):
                self.assertEqual(result[name], getattr(answer, name))
            self.assertAlmostEqual(result["gap"], answer.gap, places=6)

    def test_bad_files_stop_nobody(self):
        names = {
            "a.plan": CASE_A,
            "b.plan": b"\x10",
            "c.plan": example("cut_off.plan"),
            "d.csv": LIST,
            "e.csv": BAD_LIST,
            "f.plan": b"",
            "g.geojson": b"{",
            "h.csv": LIST + LIST.splitlines()[1] + b"\n",
            "z.plan": CASE_A,
        }
        for name, data in names.items():
            self.file(name, data)
        text = self.batch(str(self.folder), status=2)
        results = self.results()
        self.assertEqual(set(results), set(names))
        refusals = {name: result["refusal"]["number"] for name, result in results.items() if result.get("refusal")}
        self.assertEqual(refusals, {"b.plan": 1, "c.plan": 12, "f.plan": 1, "h.csv": 13})
        self.assertTrue(results["c.plan"]["error"].startswith("there is no way from corner 1 to corner 0"))
        self.assertEqual(results["e.csv"]["error"], "row 2: cost 70000 is above 65535")
        self.assertEqual((results["e.csv"]["refusal"], results["e.csv"]["seconds"]), (None, None))
        self.assertEqual([results[name]["cost"] for name in ("a.plan", "d.csv", "z.plan")], [8, 8, 8])
        for line in ("plans    9", "drives   3, of which 3 whole", "refused  4", "cost     24", "floor    24"):
            self.assertIn(line + "\n", text)
        self.assertRegex(text, f"  1 torn +2  such as {self.folder}/b.plan\n  12 cut off +1 ")
        self.assertRegex(text, f"  no plan +2  such as {self.folder}/e.csv\n")

    def test_the_summary_as_json(self):
        paths = write_towns(self.folder, 8)
        self.file("x.plan", example("cut_off.plan"))
        summary = json.loads(self.batch(str(self.folder), "--json", status=1))
        answers = [plan_call(path.read_bytes(), 1_000_000) for path in paths]
        self.assertEqual((summary["plans"], summary["drives"]), (9, 8))
        for name in ("cost", "floor", "whole"):
            self.assertEqual(summary[name], sum(getattr(answer, name) for answer in answers))
        first = str(self.folder / "x.plan")
        self.assertEqual(summary["refusals"], [{"number": 12, "word": "cut off", "plans": 1, "first": first}])
        seconds = {result["seconds"]: result["file"] for result in self.results().values()}
        self.assertEqual(summary["slowest"], {"file": seconds[max(seconds)], "seconds": max(seconds)})

    def test_any_name_of_a_file(self):
        names = [b"Stra\xc3\x9fe.plan", b"no text \xff.plan", b"two\nlines.plan", b'"quoted".plan']
        for name in names:
            self.file(os.fsdecode(name), CASE_A)
        self.batch(str(self.folder))
        self.assertEqual({os.fsencode(name) for name in self.results()}, set(names))
        self.assertIn("Straße.plan".encode(), (self.folder / "results.jsonl").read_bytes())

    def test_a_floor_of_nothing(self):
        answer = Answer(5, 0, 1, False, 2, (), ())
        with mock.patch("postman.batch.work.plan_call", return_value=answer):
            line = work(self.file("a.plan", CASE_A), 1).line()
        self.assertIsNone(json.loads(line)["gap"])
        self.assertEqual(Result.read(line).line(), line)


class GoingOn(Batch):
    def test_what_stands_is_passed_over(self):
        self.file("a.plan", CASE_A)
        self.batch(str(self.folder))
        before = (self.folder / "results.jsonl").read_bytes()
        self.file("a.plan", b"\x10")
        self.file("b.plan", CASE_A)
        text = self.batch(str(self.folder), err="postman: results.jsonl: 1 of 2 plans stand there\n")
        after = (self.folder / "results.jsonl").read_bytes()
        self.assertTrue(after.startswith(before))
        self.assertEqual([result["cost"] for result in self.results().values()], [8, 8])
        self.assertIn("plans    2\n", text)
        self.assertIn("cost     16\n", text)

    def test_a_torn_last_line_is_dropped(self):
        first, last = work(self.file("a.plan", CASE_A), 9).line(), work(self.file("b.plan", b"\x10"), 9).line()
        path = self.folder / "results.jsonl"
        for cut in range(len(last)):
            path.write_bytes(first + last[:cut])
            with ResultsFile(str(path)) as results:
                self.assertEqual([result.line() for result in results.standing()], [first])
                results.append(Result.read(last))
            self.assertEqual(path.read_bytes(), first + last)

    def test_a_file_of_something_else_is_left_as_it_is(self):
        plan = self.file("a.plan", CASE_A)
        others = (b"{}\n", b"[1]\n", b"[" * 100_000 + b"\n", b'{"file": "x"}\n', b"\n", b"7")
        for data in (CASE_A, b"from,to,standing,cost\nA,B,must,5", *others):
            path = self.file("results.jsonl", data)
            message = "results.jsonl row 1: this is no result; give another file to -o, or take the row out"
            self.batch(plan, status=2, err=f"postman: {message}\n")
            with open(path, "rb") as file:
                self.assertEqual(file.read(), data)

    def test_another_budget_needs_another_file(self):
        plan = self.file("a.plan", CASE_A)
        self.batch(plan, "--budget", "5")
        message = "a.plan stands there with a budget of 5; take another file for 6"
        self.batch(plan, "--budget", "6", status=2, err=f"postman: results.jsonl: {message}\n")
        self.assertEqual(len(self.results()), 1)

    def test_a_file_that_cannot_be_read_is_tried_again(self):
        self.file("a.plan", CASE_A)
        both = [str(self.folder / name) for name in ("b.plan", "a.plan")]
        self.batch(*both, status=2, err="postman: b.plan: cannot be read: No such file or directory\n")
        self.assertEqual(set(self.results()), {"a.plan"})
        self.file("b.plan", CASE_A)
        self.batch(*both, err="postman: results.jsonl: 1 of 2 plans stand there\n")
        self.assertEqual(set(self.results()), {"a.plan", "b.plan"})

    def test_one_run_at_a_time(self):
        path, plan = str(self.folder / "results.jsonl"), self.file("a.plan", CASE_A)
        code = "import sys; from postman.batch import *; f = ResultsFile(sys.argv[1]); print(); sys.stdin.read()"
        words = [sys.executable, "-c", code, path]
        with subprocess.Popen(words, env=environment(), stdin=subprocess.PIPE, stdout=subprocess.PIPE) as other:
            other.stdout.readline()
            self.batch(plan, status=2, err="postman: results.jsonl: another run is writing it\n")
            other.kill()
        self.batch(plan)

    def test_no_room_on_the_disk(self):
        with mock.patch("os.write", side_effect=OSError(28, "No space left on device")):
            with ResultsFile(str(self.folder / "results.jsonl")) as results, self.assertRaises(OSError):
                results.append(work(self.file("a.plan", CASE_A), 1))

    def test_results_that_cannot_be_appended_to(self):
        plan = self.file("a.plan", CASE_A)
        for path, why in (("/dev/null", "is no file on a disk"), (str(self.folder), "Is a directory")):
            done = postman("batch", plan, "-o", path)
            self.assertEqual((done.status, done.out), (2, ""))
            self.assertIn(why, done.err)


class Inputs(Folder):
    def test_folders_and_files(self):
        for name in ("sub", ".git", "sub/.hidden"):
            (self.folder / name).mkdir()
        taken = ["b.plan", "c.csv", "d.geojson", "sub/a.PLAN", "sub/z-streets.csv"]
        for name in [*taken, ".x.plan", ".git/a.plan", "sub/.hidden/a.plan", "results.jsonl", "a.txt"]:
            self.file(name, LIST if name.endswith("csv") else b"")
        self.file("sub/z-corners.csv", b"corner,x,y\nA,0,0\n")
        self.file("wide.csv", "\ufefffrom;to;Standing;cost\n".encode("utf-16"))
        found = inputs_of([str(self.folder)])
        self.assertEqual(found.plans, [str(self.folder / name) for name in [*taken, "wide.csv"]])
        self.assertEqual(found.others, [str(self.folder / "sub/z-corners.csv")])
        once = inputs_of([str(self.folder / "sub/../sub/a.PLAN"), str(self.folder / "c.csv"), str(self.folder)])
        self.assertEqual(Counter(once.plans), Counter(found.plans))
        self.assertEqual(once.plans[:2], [str(self.folder / name) for name in ("sub/a.PLAN", "c.csv")])

    def test_wrong_usage(self):
        out = ["-o", str(self.folder / "results.jsonl")]
        plan = self.file("a.plan", CASE_A)
        for argv, message in (
            ([str(self.folder / "none"), *out], "none: cannot be read: No such file"),
            (["-", *out], "a batch takes files and folders"),
            ([plan], "required: -o/--output"),
            ([plan, *out, "--jobs", "0"], "--jobs is 1 or more"),
            ([plan, *out, "--jobs", "2", "--scheduler", "x"], "the cluster has its own workers"),
        ):
            done = postman("batch", *argv)
            self.assertEqual(done.status, 2)
            self.assertIn(message, done.err)
        os.remove(plan)
        self.assertIn("there is no plan", postman("batch", str(self.folder), *out).err)
        done = postman("batch", TOWN, *out, "--budget", "1000001")
        self.assertEqual(done.status, 1)
        self.assertIn("--budget 1000001: refusal 9, budget: the budget is 0 or above 1,000,000", done.err)


class Workers(Folder):
    def test_a_worker_that_dies_is_replaced(self):
        paths = list(map(str, write_towns(self.folder, 40)))
        before = set(children())
        killed = 0
        found = []
        for outcome in by_processes(paths, 1000, jobs=2):
            found.append(outcome)
            if len(found) in (5, 20):
                victim = min(set(children()) - before)
                os.kill(victim, 9)
                killed += 1
        self.assertEqual(killed, 2)
        self.assertEqual(sorted(outcome.file for outcome in found), sorted(paths))
        self.assertFalse([outcome for outcome in found if isinstance(outcome, Undone)])
        self.assertEqual(set(children()), before)

    def test_a_plan_that_workers_die_on_stops_nobody(self):
        paths = list(map(str, write_towns(self.folder, 60)))
        with self.deadly(paths[9]):
            found = list(by_processes(paths, 1000, jobs=2))
        self.assertEqual([one for one in found if isinstance(one, Undone)], [Undone(paths[9], "3 workers died on it")])
        self.assertEqual(sorted(one.file for one in found), sorted(paths))

    def test_workers_that_all_die_end_the_run(self):
        paths = list(map(str, write_towns(self.folder, 30)))
        with self.deadly(""), self.assertRaisesRegex(ListError, "10 workers died one after the other"):
            list(by_processes(paths, 1000, jobs=1))

    def deadly(self, path: str):
        """Workers that die on a plan, or on every one."""
        code = """
            import builtins, os
            def deadly(file, *arguments, opened=open, **named):
                if str(file).endswith(".plan") and PATH in str(file):
                    os._exit(9)
                return opened(file, *arguments, **named)
            builtins.open = deadly
        """
        self.file("sitecustomize.py", dedent(code).replace("PATH", repr(path)))
        return mock.patch.dict(os.environ, PYTHONPATH=str(self.folder))


class Cluster(Folder):
    """A cluster of one, which does a task as soon as it is given, and then dies; one task fails."""

    def fake(self, failing: bytes) -> types.ModuleType:
        class Task:
            def __init__(self, key, function, file, budget):
                self.key = key
                self.status = "error" if file == failing else "lost"
                failure = (RuntimeError, RuntimeError("lost"), None)
                self.came = failure if file == failing else function(file, budget)

        class Client:
            def __init__(self, address, **_):
                if address != "tcp://here:8786":
                    raise OSError("Timed out")
                self.tasks = 0
                self.loop = None

            def __enter__(self):
                return self

            def __exit__(self, *_):
                pass

            def submit(self, function, *arguments, pure):
                self.tasks += 1
                return Task(f"task-{self.tasks}", function, *arguments)

        class as_completed(list):
            add = list.append

            def __init__(self, loop, with_results, raise_errors):
                pass

            def __iter__(self):
                while self:
                    task = self.pop()
                    yield task, task.came

        module = types.ModuleType("distributed")
        module.Client, module.as_completed = Client, as_completed
        return module

    def test_results_are_those_of_this_machine(self):
        # More that need no task than there are tasks at once.
        bad = [self.file(f"{number}.csv", BAD_LIST) for number in range(5)]
        towns = list(map(str, write_towns(self.folder, 20)))
        paths = [*towns[:9], *bad, *towns[9:], self.file("y.plan", b"\x10")]
        lost = self.file("lost.plan", drawn_town(Random(99)).write())
        away = str(self.folder / "none.plan")
        with open(lost, "rb") as file:
            fake = self.fake(file.read())
        with mock.patch.dict(sys.modules, distributed=fake), mock.patch("postman.batch.cluster.AHEAD", 3):
            found = {one.file: one for one in by_cluster([*paths, lost, away], 1000, "tcp://here:8786")}
            with self.assertRaisesRegex(ListError, "tcp://there:1: no scheduler answers: Timed out"):
                list(by_cluster(paths, 1000, "tcp://there:1"))
        self.assertEqual(found.pop(lost), Undone(lost, "the cluster failed: RuntimeError('lost')"))
        self.assertEqual(found.pop(away).reason, "cannot be read: No such file or directory")
        self.assertEqual(set(found), set(paths))
        for path in paths:
            here, there = json.loads(work(path, 1000).line()), json.loads(found[path].line())
            self.assertEqual({**here, "seconds": 0}, {**there, "seconds": 0})

    def test_without_dask(self):
        plan, out = self.file("a.plan", CASE_A), str(self.folder / "results.jsonl")
        with mock.patch.dict(sys.modules, distributed=None):
            done = postman("batch", plan, "-o", out, "--scheduler", "tcp://here:8786")
        self.assertEqual((done.status, done.out), (2, ""))
        self.assertIn("postman: tcp://here:8786: a cluster needs dask.distributed (Debian: python3-d", done.err)


class Terminal(Folder):
    def test_a_bar_on_a_terminal(self):
        write_towns(self.folder, 3)
        terminal, other = pty.openpty()
        argv = ["batch", str(self.folder), "-o", str(self.folder / "r")]
        done = from_shell(*argv, stdout=subprocess.DEVNULL, stderr=other)
        os.close(other)
        shown = b""
        try:
            while data := os.read(terminal, 4096):
                shown += data
        except OSError:
            pass  # So a terminal ends.
        os.close(terminal)
        self.assertEqual(done.wait(), 0)
        self.assertRegex(shown.decode(), r"plans \[#+\] 3 of 3, [\d,.]+ a second, 0 s left")


if __name__ == "__main__":
    unittest.main()
