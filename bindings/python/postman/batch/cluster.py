"""Plans on many machines, by a Dask cluster (`dask.distributed`): each plan is a task.

Files are read here and their bytes sent along, so that the machines of the cluster need the package and nothing else.
The scheduler gives a task of a worker that died to another.
"""

from __future__ import annotations

from collections.abc import Iterable, Iterator
from importlib import import_module
from typing import Any

from ..streets.errors import ListError
from .result import Result, Undone
from .work import Called, call, finished, read

AHEAD = 1000
"""How many tasks the scheduler holds at once."""


def by_cluster(paths: Iterable[str], budget: int, address: str) -> Iterator[Result | Undone]:
    """What came of each plan, as it ends, by the workers of the scheduler at an address."""
    try:
        distributed: Any = import_module("distributed")
    except ImportError as error:
        raise ListError(f"a cluster needs dask.distributed (Debian: python3-distributed): {error}", address) from None
    try:
        client = distributed.Client(address, set_as_default=False)
    except (OSError, TimeoutError, ValueError) as error:
        raise ListError(f"no scheduler answers: {error}", address) from None
    with client:
        rest = iter(paths)
        # With their results, which so are fetched many at a time.
        tasks = distributed.as_completed(loop=client.loop, with_results=True, raise_errors=False)
        sent: dict[str, str] = {}

        def send() -> Iterator[Result | Undone]:
            """Sends tasks out until there are enough; what needs none is answered."""
            while len(sent) < AHEAD and (path := next(rest, None)) is not None:
                file = read(path, budget)
                if isinstance(file, bytes):
                    task = client.submit(call, file, budget, pure=False)
                    sent[task.key] = path
                    tasks.add(task)
                else:
                    yield file

        yield from send()
        for task, came in tasks:
            path = sent.pop(task.key)
            # Not by the task's status: one that came may be called lost, as its worker died since.
            if isinstance(came, Called):
                yield finished(path, budget, came)
            else:
                yield Undone(path, f"the cluster failed: {came[1] if task.status == 'error' else came!r}")
            yield from send()
