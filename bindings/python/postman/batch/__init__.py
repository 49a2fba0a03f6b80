"""Many plans: drives for thousands of them on all cores, or on a cluster, with one file of results.

    >>> from postman.batch import by_processes                                  # doctest: +SKIP
    >>> for outcome in by_processes(["a.plan", "b.plan"], 100_000, jobs=2):     # doctest: +SKIP
    ...     print(outcome)

Which plans there are is in `inputs`, what came of one in `result`, and how one is worked on in `work`. `by_processes`
and `by_cluster` deal plans out and yield what came of them, in any order. `ResultsFile` keeps the results so that a run
that was killed goes on where it stopped, and `Summary` adds them up.
"""

from __future__ import annotations

from .cluster import by_cluster
from .processes import by_processes
from .result import Result, Undone
from .results_file import ResultsFile
from .summary import Summary

__all__ = ["Result", "ResultsFile", "Summary", "Undone", "by_cluster", "by_processes"]
