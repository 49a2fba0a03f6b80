"""Lays drives for thousands of plans on all cores. A line of JSON is kept for
each: file, budget, cost, floor, gap, trees, whole, parts and the seconds that
the call took, or why there is no drive. A plan that is refused stops nobody.
Killed and started again it goes on where it stopped: a plan whose path stands
in the results is passed over."""

from __future__ import annotations

from argparse import ArgumentParser, Namespace
from contextlib import closing
from time import monotonic
from typing import Any

from ..batch.inputs import inputs_of
from ..batch.result import Result, Undone
from ..batch.results_file import ResultsFile
from ..batch.summary import Summary
from ..limits import HIGHEST_BUDGET
from ..refusal import Refusal
from ..streets.errors import ListError
from .options import WrongUsage, add_budget, add_quiet, whole_number
from .output import Output, counted, per_cent, plural
from .progress import Bars
from .refused import Refused

EXAMPLE = """\
  postman batch plans -o results.jsonl
  postman batch plans/*.plan -o results.jsonl --jobs 8 --budget 100000
  postman batch plans -o results.jsonl --scheduler tcp://10.0.0.1:8786"""

MOST_TOLD = 10
"""How many plans that could not be worked on are named before the rest is counted."""


def add_arguments(parser: ArgumentParser) -> None:
    parser.add_argument(
        "named", metavar="FOLDER|FILE", nargs="+", help="plan files, street lists and maps, or folders of them"
    )
    parser.add_argument(
        "-o", "--output", metavar="RESULTS", required=True, help="the file to which results are appended"
    )
    add_budget(parser, str(HIGHEST_BUDGET))
    parser.add_argument("--jobs", metavar="J", type=whole_number, help="processes (default: one for each core)")
    parser.add_argument("--scheduler", metavar="ADDRESS", help="work on the Dask cluster of this scheduler instead")
    parser.add_argument("--json", action="store_true", help="the summary as JSON")
    add_quiet(parser)


def run(args: Namespace, output: Output) -> int:
    budget = HIGHEST_BUDGET if args.budget is None else args.budget
    if not 1 <= budget <= HIGHEST_BUDGET:
        refusal = Refusal(Refusal.BUDGET)
        raise Refused(f"--budget {budget}", refusal, f"{refusal.sentence}. {refusal.advice}")
    if args.jobs == 0:
        raise WrongUsage("--jobs is 1 or more")
    if args.jobs is not None and args.scheduler is not None:
        raise WrongUsage("--jobs is for this machine; the cluster has its own workers")
    plans, others = inputs_of(args.named)
    if others:
        output.note(f"passed over {plural(len(others), 'table')} without a column standing, such as {others[0]}")
    if not plans:
        raise ListError("there is no plan", args.named[0])
    summary, undone = Summary(), []
    with ResultsFile(args.output) as results:
        rest = not_standing(plans, budget, results, summary)
        if len(rest) < len(plans):
            output.note(f"{args.output}: {counted(len(plans) - len(rest))} of {plural(len(plans), 'plan')} stand there")
        progress = Progress(len(plans), len(rest), output)
        try:
            with closing(outcomes_of(rest, budget, args)) as outcomes:
                for outcome in outcomes:
                    if isinstance(outcome, Undone):
                        undone.append(outcome)
                    else:
                        results.append(outcome)
                        summary.add(outcome)
                    progress.step()
        except KeyboardInterrupt:
            progress.end()
            output.note("stopped; the same command goes on from here")
            raise
        progress.end()
    if args.json:
        output.json(as_object(summary))
    else:
        print_summary(output, summary)
    return status_of(summary, undone)


def outcomes_of(rest: list[str], budget: int, args: Namespace) -> Any:
    """What comes of the plans, here or on a cluster."""
    if args.scheduler is not None:
        from ..batch.cluster import by_cluster

        return by_cluster(rest, budget, args.scheduler)
    from ..batch.processes import by_processes

    return by_processes(rest, budget, args.jobs)


def not_standing(plans: list[str], budget: int, results: ResultsFile, summary: Summary) -> list[str]:
    """The plans that do not stand in the results; those that do are added up."""
    rest = dict.fromkeys(plans)
    for result in results.standing():
        if result.file in rest:
            if result.budget != budget:
                message = f"{result.file} stands there with a budget of {result.budget}; take another file for {budget}"
                raise ListError(message, results.path)
            del rest[result.file]
            summary.add(result)
    return list(rest)


class Progress:
    """One bar for all plans, with how many end in a second and how long the rest will take."""

    def __init__(self, plans: int, rest: int, output: Output) -> None:
        self.plans = plans
        self.done = plans - rest
        self.first: tuple[int, float] | None = None
        self.bars = Bars(["plans"], output.progress)

    def step(self) -> None:
        self.done += 1
        if not self.bars.drawn:
            return
        told = f"{counted(self.done)} of {counted(self.plans)}"
        # Counted from the first plan that ended, as it takes a while until all workers have begun.
        if self.first is None:
            self.first = self.done, monotonic()
        elif self.done > self.first[0] and (passed := monotonic() - self.first[1]) > 0:
            rate = (self.done - self.first[0]) / passed
            told += f", {said(rate)} a second, {duration((self.plans - self.done) / rate)} left"
        self.bars.set(0, self.done / self.plans, told)

    def end(self) -> None:
        self.bars.end()


def said(rate: float) -> str:
    return counted(round(rate)) if rate >= 10 else f"{rate:.1f}"


def duration(seconds: float) -> str:
    """A time as a person says it: 42 s, 3 min, 1 h 20 min."""
    minutes = round(seconds / 60)
    if seconds < 90:
        return f"{round(seconds)} s"
    return f"{minutes} min" if minutes < 60 else f"{minutes // 60} h {minutes % 60} min"


def print_summary(output: Output, summary: Summary) -> None:
    refused = sum(group.plans for group in summary.refusals.values())
    output.result(f"plans    {counted(summary.plans)}")
    output.result(f"drives   {counted(summary.drives)}, of which {counted(summary.whole)} whole")
    output.result(f"refused  {counted(refused)}")
    for number, group in sorted(summary.refusals.items()):
        fate = f"{number} {Refusal(number).word}"
        output.result(f"  {fate:15} {counted(group.plans):>7}  such as {group.first}")
    if summary.no_plans.plans:
        output.result(f"  {'no plan':15} {counted(summary.no_plans.plans):>7}  such as {summary.no_plans.first}")
    if summary.drives:
        output.result(f"cost     {output.style(counted(summary.cost), 'bold')}")
        output.result(f"floor    {counted(summary.floor)}")
        output.result(f"gap      {'-' if summary.gap is None else per_cent(summary.gap)}")
    if summary.slowest is not None:
        output.result(f"slowest  {summary.slowest.seconds:.3f} s, {summary.slowest.file}")


def as_object(summary: Summary) -> dict[str, Any]:
    """The summary for JSON."""
    slowest: Result | None = summary.slowest
    return {
        "plans": summary.plans,
        "drives": summary.drives,
        "whole": summary.whole,
        "cost": summary.cost,
        "floor": summary.floor,
        "gap": summary.gap,
        "refusals": [
            {"number": number, "word": Refusal(number).word, "plans": group.plans, "first": group.first}
            for number, group in sorted(summary.refusals.items())
        ],
        "no_plans": summary.no_plans.plans,
        "seconds": round(summary.seconds, 6),
        "slowest": None if slowest is None else {"file": slowest.file, "seconds": slowest.seconds},
    }


def status_of(summary: Summary, undone: list[Undone]) -> int:
    """The exit status. Says which plans could not be worked on."""
    from . import ANSWERED, REFUSED, WRONG_USAGE, complain

    for outcome in undone[:MOST_TOLD]:
        complain(f"postman: {outcome.file}: {outcome.reason}")
    if len(undone) > MOST_TOLD:
        complain(f"postman: and {counted(len(undone) - MOST_TOLD)} more")
    if undone or summary.no_plans.plans:
        return WRONG_USAGE
    return REFUSED if summary.refusals else ANSWERED
