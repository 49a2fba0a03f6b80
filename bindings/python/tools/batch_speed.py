"""How many plans a second `postman batch` does, and how much of that is the library's own time.

`python3 tools/batch_speed.py FOLDER...` runs the command over each folder's plan files, with 1 and 2 processes. All
times are the processor's, of the command and its workers together, the least of five runs, which take turns; only "on
the clock" is wall time, of the fastest run, which other work on the machine slows. The start of the processes, as
measured on the smallest plans, is taken off. The library's own time is that of its calls alone on the same plans, in
one process, with nothing read or written. `python3 tests/drawn.py FOLDER COUNT` draws towns.

`python3 tools/batch_speed.py --memory FOLDER` runs it once, and shows how much memory the processes hold on the way.
"""

from __future__ import annotations

import os
import subprocess
import sys
import tempfile
import time
from pathlib import Path

PACKAGE = Path(__file__).resolve().parents[1]
sys.path.insert(0, str(PACKAGE))

from postman._lent import Lent  # noqa: E402
from postman._library import library  # noqa: E402
from postman.batch.inputs import inputs_of  # noqa: E402

SMALL = bytes.fromhex("10402001400141000003")
BUDGET = 1_000_000
TURNS = 5
STEPS = 10


def start(plans: list[str], results: str, jobs: int) -> subprocess.Popen:
    words = [sys.executable, "-m", "postman", "batch", *plans, "-o", results, "--jobs", str(jobs), "--quiet"]
    env = {**os.environ, "PYTHONPATH": str(PACKAGE)}
    return subprocess.Popen(words, env=env, stdout=subprocess.DEVNULL)


def measured(plans: list[str], jobs: int) -> tuple[float, float]:
    """Processor time and wall time of one run."""
    with tempfile.TemporaryDirectory() as folder:
        begun = time.perf_counter()
        run = start(plans, str(Path(folder) / "results.jsonl"), jobs)
        _, _, used = os.wait4(run.pid, 0)
        return used.ru_utime + used.ru_stime, time.perf_counter() - begun


def of_library(files: list[bytes]) -> float:
    """The processor time of the calls alone."""
    lent = Lent()
    begun = time.process_time()
    for file in files:
        library.postman_plan_call(file, len(file), BUDGET, *lent.arguments)
    return time.process_time() - begun


def speed(folder: str) -> None:
    paths = inputs_of([folder]).plans
    plans = len(paths)
    files = [Path(path).read_bytes() for path in paths]
    own, begin, cpu, wall = [], {1: [], 2: []}, {1: [], 2: []}, {1: [], 2: []}
    with tempfile.TemporaryDirectory() as name:
        # As many small plans as there are processes, so that all of these begin.
        small = [str(Path(name) / f"{number}.plan") for number in range(2)]
        for path in small:
            Path(path).write_bytes(SMALL)
        for _ in range(TURNS):
            own.append(of_library(files))
            for jobs in (1, 2):
                begin[jobs].append(measured(small[:jobs], jobs)[0])
                for times, seconds in zip((cpu, wall), measured([folder], jobs)):
                    times[jobs].append(seconds)
    print(f"{folder}: {plans} plans, {1000 * min(own) / plans:.3f} ms of the library's own time each")
    for jobs in (1, 2):
        each = (min(cpu[jobs]) - min(begin[jobs])) / plans
        share = min(own) / plans / each
        print(
            f"  {jobs} at once: {1000 * each:.3f} ms of the processor each, so {jobs / each:.0f} plans a second; "
            f"the library's share {share:.0%}; start {min(begin[jobs]):.2f} s; "
            f"on the clock {plans / min(wall[jobs]):.0f} a second"
        )


def held(process: int) -> int:
    """The memory that a process holds, in KiB."""
    with open(f"/proc/{process}/status") as file:
        return next(int(line.split()[1]) for line in file if line.startswith("VmRSS"))


def memory(folder: str) -> None:
    plans = len(inputs_of([folder]).plans)
    with tempfile.TemporaryDirectory() as name:
        results = Path(name) / "results.jsonl"
        run = start([folder], str(results), 2)
        step = 1
        while run.poll() is None:
            done = results.read_bytes().count(b"\n") if results.exists() else 0
            if done >= step * plans // STEPS - plans // (2 * STEPS):
                with open(f"/proc/{run.pid}/task/{run.pid}/children") as file:
                    workers = list(map(int, file.read().split()))
                sizes = [held(worker) for worker in workers]
                print(f"{done} plans: the command {held(run.pid)} KiB, workers {sizes} KiB")
                step += 1
            time.sleep(0.02)


if __name__ == "__main__":
    if len(sys.argv) == 3 and sys.argv[1] == "--memory":
        memory(sys.argv[2])
    elif len(sys.argv) > 1 and not sys.argv[1].startswith("-"):
        for folder in sys.argv[1:]:
            speed(folder)
    else:
        sys.exit(__doc__)
