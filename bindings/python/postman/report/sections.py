"""The sections of a report, as HTML."""

from __future__ import annotations

from collections import defaultdict
from collections.abc import Iterable, Sequence
from html import escape

from ..answer import Answer
from ..limits import HIGHEST_COUNT
from ..picture import budgets, drive, svg_element, town
from ..picture.passes import Pass, Purpose, passes
from ..picture.percent import percent
from ..plan import Standing
from ..streets.windows_file import LONG_DAYS
from .job import Job
from .market_days import Spell, clock
from .meaning import WHY, does, meaning


def section(name: str, title: str, *parts: str) -> str:
    """A section with its heading."""
    return f'<section id="{name}">\n<h2>{title}</h2>\n' + "\n".join(parts) + "\n</section>"


def table(header: Sequence[str], rows: Iterable[Sequence[str]], numbers: Iterable[int] = (), name: str = "") -> str:
    """A table of cells that are HTML already; the columns `numbers` are aligned to the right."""
    right = set(numbers)

    def cell(tag: str, column: int, text: str) -> str:
        return f'<{tag}{" class=number" if column in right else ""}>{text}</{tag}>'

    head = "".join(cell("th", column, text) for column, text in enumerate(header))
    lines = ("".join(cell("td", column, text) for column, text in enumerate(row)) for row in rows)
    body = "\n".join(f"<tr>{line}</tr>" for line in lines)
    kind = f' class="{name}"' if name else ""
    return f"<div class=wide><table{kind}><thead><tr>{head}</tr></thead><tbody>\n{body}\n</tbody></table></div>"


def headline(job: Job) -> str:
    """Cost, floor and gap, large, and what they mean."""
    answer = job.answer
    figures = (("cost", f"{answer.cost:,}"), ("floor", f"{answer.floor:,}"), ("gap", percent(answer)))
    boxes = "".join(f"<div><dt>{name}</dt><dd id={name}>{value}</dd></div>" for name, value in figures)
    return f"<dl class=headline>{boxes}</dl>\n<p class=meaning>{escape(meaning(answer))}</p>"


def figures(job: Job) -> str:
    """The plan's figures, and what the drive's cost is made of."""
    streets, answer = job.streets, job.answer
    standing = {one: sum(street.standing is one for street in streets.streets) for one in Standing}
    trees = f"above {HIGHEST_COUNT:,}" if job.trees is None else f"{job.trees:,}"
    of_all = "in all rounds" if job.deep else "all of them" if answer.whole else f"of {trees}"
    rows = [
        ("street list", escape(streets.path)),
        ("corners", f"{len(streets.corners)}"),
        ("streets, one way each", f"{len(streets.streets)}"),
        ("must be driven", f"{standing[Standing.MUST]}"),
        ("may be driven", f"{standing[Standing.MAY]}"),
        ("closed", f"{standing[Standing.CLOSED]}"),
        ("parts", f"{answer.parts}"),
        ("trees tried", f"{answer.trees:,}, {of_all}"),
    ]
    if job.departure:
        when = f"{LONG_DAYS[job.departure.weekday].capitalize()} {clock(job.departure.minute)}"
        rows.insert(1, ("departure", f"{when}, {len(job.shut)} streets shut"))
    plan = table(("the plan", ""), rows, name="pairs")
    return f"<div class=columns>{plan}{_made_of(job)}</div>"


def _made_of(job: Job) -> str:
    made = passes(job.streets, job.answer.drive)
    words = {Purpose.CHECK: "checks", Purpose.JOINING: "extra, joining", Purpose.BALANCING: "extra, balancing"}
    rows: list[Sequence[str]] = []
    for purpose, word in words.items():
        own = [one for one in made if one.purpose is purpose]
        rows.append((word, f"{len(own):,}", f"{sum(one.cost for one in own):,}"))
    rows.append(tuple(f"<strong>{cell}</strong>" for cell in ("the drive", f"{len(made):,}", f"{job.answer.cost:,}")))
    return table(("the drive", "steps", "cost"), rows, (1, 2))


def town_picture(job: Job) -> str:
    """The picture of the town."""
    return f"<figure class=picture>{svg_element(town(job.streets, job.shut, job.name), 'town')}</figure>"


def steps(job: Job) -> str:
    """The drive's picture and its steps, which show each other."""
    made = passes(job.streets, job.answer.drive)
    picture = svg_element(drive(job.streets, job.answer, job.shut, job.name), "drive")
    hint = "<p class='hint screen'>Point at a step to see it in the picture, or at an arrow to see its step.</p>"
    figure = f"<figure class=picture>{picture}</figure>"
    return f"{hint}\n<div class=follow>{figure}\n<div class=steps>{_step_table(job, made)}</div></div>"


def _step_table(job: Job, made: Sequence[Pass]) -> str:
    rows = []
    so_far = 0
    for one in made:
        street = job.streets.streets[one.arc]
        so_far += one.cost
        cells = (
            f"<td class=number>{one.step}</td><td><span class=street>{escape(street.name)}</span>"
            f"<span class=ends>{escape(street.from_corner)} → {escape(street.to_corner)}</span></td>"
            f"<td><span class='does {one.purpose.value}'>{escape(does(one))}</span></td>"
            f"<td class=number>{one.cost:,}</td><td class=number>{so_far:,}</td>"
        )
        rows.append(f'<tr id="step-{one.step}" data-step="{one.step}" data-arc="{one.arc}" tabindex="0">{cells}</tr>')
    right = {"step", "cost", "so far"}
    names = ("step", "street", "does", "cost", "so far")
    head = "".join(f"<th{' class=number' if name in right else ''}>{name}</th>" for name in names)
    return f"<table><thead><tr>{head}</tr></thead><tbody>\n" + "\n".join(rows) + "\n</tbody></table>"


def repeats(job: Job) -> str:
    """What is driven more than once, or without having to be, and why."""
    by_arc: dict[int, list[Pass]] = defaultdict(list)
    for one in passes(job.streets, job.answer.drive):
        by_arc[one.arc].append(one)
    rows = []
    for arc, made in sorted(by_arc.items(), key=lambda entry: (-len(entry[1]), entry[0])):
        extra = [one for one in made if one.purpose is not Purpose.CHECK]
        if extra:
            street = job.streets.streets[arc]
            links = ", ".join(f'<a href="#step-{one.step}">{one.step}</a>' for one in made)
            why = "<br>".join(dict.fromkeys(escape(does(one)) for one in extra))
            name = f"<span class=street>{escape(street.name)}</span>"
            ends = f"<span class=ends>{escape(street.from_corner)} → {escape(street.to_corner)}</span>"
            standing = street.standing.name.lower()
            cost = f"{sum(one.cost for one in extra):,}"
            rows.append((name + ends, standing, str(len(made)), links, why, cost))
    if not rows:
        return "<p>Nothing: every step checks a must street.</p>"
    header = ("street", "standing", "passes", "steps", "the extra passes are", "their cost")
    return f"<p>{WHY}</p>\n" + table(header, rows, (2, 5), "repeats")


def budget_section(job: Job) -> str:
    """The chart of budgets, and its numbers."""
    rows = [
        (f"{budget:,}", f"{a.cost:,}", f"{a.floor:,}", percent(a), f"{a.trees:,}", "yes" if a.whole else "no")
        for budget, a in job.budgets
    ]
    deep = job.answer
    if job.deep:
        rows.append(("in rounds", f"{deep.cost:,}", f"{deep.floor:,}", percent(deep), f"{deep.trees:,}", ""))
    drawing = budgets(job.budgets, "Cost and floor over the budget")
    chart = f"<figure class=chart>{svg_element(drawing, 'budgets-chart')}</figure>"
    elsewhere = " Rounds look elsewhere too, under other numbers of the corners." if job.deep else ""
    words = f"<p>A larger budget never gives a dearer drive, nor a lower floor.{elsewhere}</p>"
    numbers = table(("budget", "cost", "floor", "gap", "trees tried", "all trees"), rows, range(5))
    return f"{words}<div class=columns>{chart}{numbers}</div>"


def market_days(job: Job) -> str:
    """The week by the streets that are shut, with the drive's cost at each time."""
    rows = []
    for spell in job.spells:
        names = dict.fromkeys(job.streets.streets[arc].name for arc in sorted(spell.shut))
        rows.append((spell.times, escape(", ".join(names)) or "none", *_spell_cells(spell)))
    plain = " These drives are laid without rounds." if job.deep else ""
    words = f"<p>What counts is what is shut when the drive begins; later minutes play no part.{plain}</p>"
    return words + table(("departure", "streets shut", "cost", "floor", "gap"), rows, (2, 3, 4))


def _spell_cells(spell: Spell) -> tuple[str, str, str]:
    if isinstance(spell.result, Answer):
        return f"{spell.result.cost:,}", f"{spell.result.floor:,}", percent(spell.result)
    return escape(f"refused: {spell.result.word}"), "", ""
