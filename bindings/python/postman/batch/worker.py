"""A worker process: `python3 -m postman.batch.worker BUDGET` reads paths, a line each, and writes what came of them.

Paths come as JSON strings. A result goes back as its line; a plan that could not be worked on as a JSON list of its
path and the reason. The worker ends when nobody writes to it any more, and so with the process that began it, however
that ended.
"""

from __future__ import annotations

import json
import os
import sys
from time import monotonic

from .processes import BUNCH
from .result import Undone, encoded
from .work import work

PAUSE = 0.01
"""No line waits for others longer than these seconds and the time that a plan takes."""


def main(budget: int) -> None:
    torn = b""
    while data := os.read(sys.stdin.fileno(), 65536):
        *lines, torn = (torn + data).split(b"\n")
        ready: list[bytes] = []
        last = monotonic()
        for line in lines:
            outcome = work(json.loads(line), budget)
            if isinstance(outcome, Undone):
                ready.append(encoded([outcome.file, outcome.reason]))
            else:
                ready.append(outcome.line())
            if len(ready) == BUNCH or monotonic() - last >= PAUSE:
                write(ready)
                last = monotonic()
        write(ready)


def write(ready: list[bytes]) -> None:
    """Writes what is ready."""
    data = b"".join(ready)
    ready.clear()
    try:
        while data:
            data = data[os.write(sys.stdout.fileno(), data) :]
    except BrokenPipeError:
        sys.exit()


if __name__ == "__main__":
    main(int(sys.argv[1]))
