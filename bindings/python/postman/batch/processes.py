"""Plans on all cores of this machine, by processes.

The process that deals plans out keeps each worker in work: it has one plan in hand and others waiting. A worker that
dies, as on a machine short of memory, is replaced, and what it had is dealt again.
"""

from __future__ import annotations

import json
import os
import selectors
import subprocess
import sys
from collections import Counter, deque
from collections.abc import Iterable, Iterator
from pathlib import Path

from ..streets.errors import ListError
from .result import Result, Undone, encoded

BUNCH = 8
"""So many results a worker writes at once at most, so that short plans do not cost a change of processes each."""

AHEAD = 2 * BUNCH
"""How many plans a worker has at most: a bunch that it works on, and the next."""

ROOM = 4096
"""The bytes that a pipe takes whatever happens, so that dealing never waits for a worker that waits itself."""

MOST_DEATHS = 3
"""A plan on which so many workers died is given up for this run."""

MOST_IN_A_ROW = 10
"""So many deaths for each worker with nothing done between them end the run: it is not the plans."""


def cores() -> int:
    """The cores that this process may use."""
    return len(os.sched_getaffinity(0))


class Worker:
    """A worker process and the plans that it has, the one in hand first."""

    def __init__(self, budget: int) -> None:
        root = str(Path(__file__).resolve().parents[2])
        paths = [root, *filter(None, [os.environ.get("PYTHONPATH")])]
        self.process = subprocess.Popen(
            [sys.executable, "-m", f"{__package__}.worker", str(budget)],
            stdin=subprocess.PIPE,
            stdout=subprocess.PIPE,
            bufsize=0,
            env={**os.environ, "PYTHONPATH": os.pathsep.join(paths)},
            # An interrupt at the terminal is for the process that deals; it lets the workers end.
            process_group=0,
        )
        assert self.process.stdin is not None and self.process.stdout is not None
        self.to = self.process.stdin.fileno()
        self.back = self.process.stdout.fileno()
        self.plans: deque[str] = deque()
        self.asked: deque[int] = deque()
        """How many bytes each plan's path took."""
        self.torn = b""

    def deal(self, waiting: deque[str], most: int) -> None:
        """Takes plans from those waiting, until it has so many."""
        lines = []
        while waiting and len(self.plans) < most:
            line = encoded(waiting[0])
            if self.plans and sum(self.asked) + len(line) > ROOM:
                break
            self.plans.append(waiting.popleft())
            self.asked.append(len(line))
            lines.append(line)
        try:
            os.write(self.to, b"".join(lines))
        except BrokenPipeError:
            pass  # It has died, which reading from it will tell.

    def outcomes(self) -> list[Result | Undone] | None:
        """What came back since, or None where the worker has died."""
        data = os.read(self.back, 65536)
        if not data:
            return None
        *lines, self.torn = (self.torn + data).split(b"\n")
        for _ in lines:
            self.plans.popleft()
            self.asked.popleft()
        return [outcome_of(line) for line in lines]

    def end(self) -> None:
        """Lets it end: nobody writes to it any more."""
        for stream in (self.process.stdin, self.process.stdout):
            if stream is not None:
                stream.close()
        self.process.wait()


def outcome_of(line: bytes) -> Result | Undone:
    """What a worker wrote."""
    return Undone(*json.loads(line)) if line.startswith(b"[") else Result.read(line)


def by_processes(paths: Iterable[str], budget: int, jobs: int | None = None) -> Iterator[Result | Undone]:
    """What came of each plan, as it ends, by so many processes (as many as there are cores)."""
    waiting = deque(paths)
    at_once = max(1, min(cores() if jobs is None else jobs, len(waiting)))
    suspects: set[str] = set()
    deaths: Counter[str] = Counter()
    in_a_row = 0
    with selectors.DefaultSelector() as selector:

        def start() -> None:
            worker = Worker(budget)
            selector.register(worker.back, selectors.EVENT_READ, worker)
            feed(worker)

        def feed(worker: Worker) -> None:
            # Fewer towards the end, so that nobody keeps a plan waiting that another could begin; and one at a time
            # of those that a worker had when it died, so that the next death tells on which.
            suspected = waiting and waiting[0] in suspects
            worker.deal(waiting, 1 if suspected else max(1, min(AHEAD, len(waiting) // at_once)))

        def workers() -> list[Worker]:
            return [key.data for key in selector.get_map().values()]

        try:
            for _ in range(at_once if waiting else 0):
                start()
            while waiting or any(worker.plans for worker in workers()):
                for key, _ in selector.select():
                    worker: Worker = key.data
                    outcomes = worker.outcomes()
                    if outcomes is not None:
                        in_a_row = 0
                        feed(worker)
                        yield from outcomes
                        continue
                    selector.unregister(worker.back)
                    worker.end()
                    in_a_row += 1
                    if in_a_row == MOST_IN_A_ROW * at_once:
                        raise ListError(f"{in_a_row} workers died one after the other", sys.executable)
                    if len(worker.plans) == 1:
                        deaths[worker.plans[0]] += 1
                        if deaths[worker.plans[0]] == MOST_DEATHS:
                            yield Undone(worker.plans.popleft(), f"{MOST_DEATHS} workers died on it")
                    suspects.update(worker.plans)
                    waiting.extendleft(reversed(worker.plans))
                    start()
        finally:
            for worker in workers():
                worker.end()
