"""The page of a report: its sections, with style and script inside."""

from __future__ import annotations

from datetime import date
from html import escape
from importlib.resources import files

from .._library import __version__
from ..picture.style import stylesheet
from . import sections
from .job import Job

# The page may run its own script and style, and load nothing.
_POLICY = (
    "default-src 'none'; style-src 'unsafe-inline'; script-src 'unsafe-inline'; base-uri 'none'; form-action 'none'"
)


def report(job: Job) -> str:
    """The report as the text of an HTML file."""
    made = (job.made or date.today()).isoformat()
    parts = [
        sections.section("figures", "The plan and the drive", sections.figures(job)),
        sections.section("town-section", "The town", sections.town_picture(job)),
        sections.section("drive-section", "The drive, step by step", sections.steps(job)),
        sections.section("repeats", "What is driven twice, or without a check, and why", sections.repeats(job)),
        sections.section("budgets", "What a raised budget buys", sections.budget_section(job)),
    ]
    if job.spells:
        parts.append(sections.section("market-days", "Market days", sections.market_days(job)))
    links = "".join(
        f'<a href="#{name}">{title}</a>'
        for name, title in (
            ("figures", "figures"),
            ("town-section", "town"),
            ("drive-section", "drive"),
            ("repeats", "repeats"),
            ("budgets", "budgets"),
            *((("market-days", "market days"),) if job.spells else ()),
        )
    )
    name = escape(job.name)
    return f"""<!DOCTYPE html>
<html lang="en">
<head>
<meta charset="utf-8">
<meta name="viewport" content="width=device-width, initial-scale=1">
<meta http-equiv="Content-Security-Policy" content="{_POLICY}">
<meta name="color-scheme" content="light dark">
<title>{name}: survey drive</title>
<style>
{_resource("report.css")}
{stylesheet()}</style>
</head>
<body>
<header>
<p class=kind>Survey drive</p>
<h1>{name}</h1>
<p class=made>Made on {made} by postman {escape(__version__)}.
Cost, floor and drive are the proved planner's answer.</p>
{sections.headline(job)}
<nav class=screen aria-label="sections">{links}</nav>
</header>
<main>
{chr(10).join(parts)}
</main>
<script>
{_resource("report.js")}</script>
</body>
</html>
"""


def _resource(name: str) -> str:
    return files(__package__).joinpath(name).read_text("utf-8")
