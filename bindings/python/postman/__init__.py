"""The survey drive's planner, proved by machine, from Python.

Given a plan of streets, the planner lays a closed drive that passes every street that must be driven, and gives a
floor: a number that no drive can undercut. In the field's words: the directed rural postman problem, with a certified
lower bound.

    >>> from postman import Arc, Plan, Standing, plan_call
    >>> plan = Plan(2, [Arc(0, 1, Standing.MUST, cost=5), Arc(1, 0, Standing.MAY, cost=3)])
    >>> answer = plan_call(plan.write(), 10_000)
    >>> answer.drive, answer.cost, answer.floor
    ((0, 1), 8, 8)

What is proved is the C library behind this package, which include/postman.h describes. This package lends it memory
and takes its answers apart. Calls leave other threads running, and any number of threads may call at once; a thread
needs `limits.STACK_BYTES` of stack, which Python's threads have unless `threading.stack_size` was set below it.
"""

from . import limits
from ._library import __version__
from .answer import Answer
from .calls import Distances, deep_call, distances, judge, plan_call, plan_call_at, short_call, tree_count
from .cars import Car, two_cars
from .districts import Districts, Turn
from .open_plan import OpenPlan
from .plan import Arc, Plan, Standing
from .refusal import Refusal
from .streets import drive_geojson, from_geojson
from .windows import Departure, Window

__all__ = [
    "Answer",
    "Arc",
    "Car",
    "Departure",
    "Distances",
    "Districts",
    "OpenPlan",
    "Plan",
    "Refusal",
    "Standing",
    "Turn",
    "Window",
    "__version__",
    "deep_call",
    "distances",
    "drive_geojson",
    "from_geojson",
    "judge",
    "limits",
    "plan_call",
    "plan_call_at",
    "short_call",
    "tree_count",
    "two_cars",
]
