"""What the page shows of a desk, as JSON, and its pictures."""

from __future__ import annotations

from collections import Counter
from typing import Any

from ..answer import Answer
from ..picture import Drawing, cars, drive, svg_element, town
from ..picture.base import name_of
from ..picture.cars import car_list
from ..picture.passes import passes
from ..picture.percent import percent
from ..refusal import Refusal
from ..report.meaning import does, meaning
from ..streets.street_list import StreetList
from .saving import free_name
from .state import Desk, Wrong

VIEWS = ("drive", "town", "cars", "first-car", "second-car")


def view(desk: Desk) -> dict[str, Any]:
    """All that the page shows but for the picture."""
    now = desk.streets
    return {
        "serial": desk.serial,
        "title": name_of(desk.opened),
        "edition": desk.opened.edition,
        "streets": _streets(desk, now),
        "result": _result(desk, now, desk.result),
        "changed": _changed(desk),
        "marks": [None if mark is None else _short(mark) for mark in desk.marks()],
        "budget": desk.budget,
        "windows": bool(desk.windows),
        "departure": None
        if desk.departure is None
        else {"weekday": desk.departure.weekday, "minute": desk.departure.minute},
        "cars": _cars(desk),
        "save": free_name(desk.opened),
    }


def picture(desk: Desk, which: str) -> str:
    """One of the pictures, as SVG."""
    return svg_element(_drawing(desk, which), "picture")


def _drawing(desk: Desk, which: str) -> Drawing:
    now = desk.streets
    if which == "drive" and isinstance(desk.result, Answer):
        return drive(now, desk.result, desk.shut)
    if which in ("drive", "town"):
        return town(now, desk.shut)
    if which not in VIEWS:
        raise Wrong(f"there is no picture {which}")
    answers = desk.of_cars()
    if which != "cars" and answers is not None:
        car = VIEWS.index(which) - VIEWS.index("first-car")
        answer = answers[car]
        if isinstance(answer, Answer):
            title = f"{name_of(now)}, {('first', 'second')[car]} car"
            return drive(car_list(now, desk.cars[car]), answer, title=title)
    return cars(now, desk.cars)


def _streets(desk: Desk, now: StreetList) -> list[dict[str, Any]]:
    count = Counter(desk.result.drive) if isinstance(desk.result, Answer) else Counter()
    rows = []
    for arc, (street, was) in enumerate(zip(now.streets, desk.opened.streets)):
        fields = (street.standing, street.cost, street.checking)
        rows.append(
            {
                "arc": arc,
                "name": street.name,
                "from": street.from_corner,
                "to": street.to_corner,
                "standing": street.standing.name.lower(),
                "cost": street.cost,
                "checking": street.checking,
                "shut": arc in desk.shut,
                "passes": count[arc],
                "changed": fields != (was.standing, was.cost, was.checking),
                "was": _said(was.standing.name.lower(), was.cost, was.checking),
                "back": bool(desk.way_back(arc)),
                "car": 0 if arc in desk.cars[0] else 1 if arc in desk.cars[1] else None,
            }
        )
    return rows


def _said(standing: str, cost: int, checking: int | None) -> str:
    return f"{standing}, cost {cost}" + ("" if checking is None else f", checking {checking}")


def _result(desk: Desk, now: StreetList, result: Answer | Refusal) -> dict[str, Any]:
    if isinstance(result, Refusal):
        return {"refusal": result.number, "word": result.word, "sentence": desk.explain(result)}
    steps = [
        {
            "step": one.step,
            "arc": one.arc,
            "name": now.streets[one.arc].name,
            "from": now.streets[one.arc].from_corner,
            "to": now.streets[one.arc].to_corner,
            "cost": one.cost,
            "purpose": one.purpose.value,
            "does": does(one),
        }
        for one in passes(now, result.drive)
    ]
    return {**_short(result), "meaning": meaning(result), "parts": result.parts, "steps": steps}


def _short(result: Answer | Refusal) -> dict[str, Any]:
    if isinstance(result, Refusal):
        return {"refusal": result.number, "word": result.word}
    return {
        "cost": result.cost,
        "floor": result.floor,
        "gap": percent(result),
        "trees": result.trees,
        "whole": result.whole,
    }


def _changed(desk: Desk) -> dict[str, Any] | None:
    """What the last change made of the answer: how cost and floor moved, and what is driven more or less often."""
    if not (isinstance(desk.before, Answer) and isinstance(desk.result, Answer)):
        return None
    now, before = (Counter(desk.opened.streets[arc].name for arc in one.drive) for one in (desk.result, desk.before))
    return {
        "cost": desk.result.cost - desk.before.cost,
        "floor": desk.result.floor - desk.before.floor,
        "more": list(now - before),
        "less": list(before - now),
    }


def _cars(desk: Desk) -> list[dict[str, Any]] | None:
    answers = desk.of_cars()
    if answers is None:
        return None
    shown = []
    for answer, marks in zip(answers, desk.cars):
        row: dict[str, Any] = {"marks": len(marks), **_short(answer)}
        if isinstance(answer, Refusal):
            row["sentence"] = desk.explain(answer, sorted(marks))
        shown.append(row)
    return shown
