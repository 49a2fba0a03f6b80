"""How a drawing's classes look: on paper and light screens, and on dark screens.

Every rule names its colours outright, and not by a variable, since many programs that show SVG know no variables. What
matters is told by the line's shape too: width, dashes and crosses.
"""

from __future__ import annotations

from collections.abc import Mapping, Sequence

FONT = "'Helvetica Neue', Helvetica, Arial, 'Liberation Sans', 'DejaVu Sans', sans-serif"

LIGHT = {
    "paper": "#ffffff",
    "ink": "#1b2430",
    "soft": "#5a6675",
    "faint": "#c3cad3",
    "must": "#0b4a9e",
    "may": "#55616f",
    "closed": "#a8322a",
    "check": "#0b4a9e",
    "joining": "#99126b",
    "balancing": "#a85400",
    "first-car": "#0b4a9e",
    "second-car": "#b4470a",
    "glow": "#ffd84d",
}
LIGHT_PARTS = ("#dce9fb", "#fde6cd", "#dcf1dd", "#f3dff0", "#fbf1c4", "#d7eff0", "#e5e0fa", "#fbdedb")

DARK = {
    "paper": "#12171f",
    "ink": "#e9edf2",
    "soft": "#a3afbd",
    "faint": "#434e5c",
    "must": "#8dbcff",
    "may": "#a9b4c2",
    "closed": "#ff8f85",
    "check": "#8dbcff",
    "joining": "#ff95d2",
    "balancing": "#ffb65c",
    "first-car": "#8dbcff",
    "second-car": "#ffb082",
    "glow": "#8a6d00",
}
DARK_PARTS = ("#1c304f", "#473220", "#1d3d28", "#42263d", "#413b17", "#193e42", "#312a53", "#4a2727")

# Widths and dashes, the same in both.
_SHAPES = """\
text { font-family: FONT; font-size: 9px; }
.title { font-size: 19px; font-weight: bold; }
.subtitle { font-size: 11px; }
.words, .scale text, .note text { font-size: 10px; }
.corner text { font-size: 9px; font-weight: bold; }
text.halo { paint-order: stroke; stroke-width: 3px; stroke-linejoin: round; }
.corner.inside text { font-size: 8.5px; }
.name text { font-size: 8.5px; font-style: italic; }
.part text { font-size: 11px; font-weight: bold; letter-spacing: 0.5px; }
.start text { font-size: 10px; font-weight: bold; }
.line { fill: none; stroke-linecap: round; stroke-linejoin: round; stroke-width: 1.4; }
text, .tint { pointer-events: none; }
.tint { fill: none; stroke-linecap: round; stroke-linejoin: round; stroke-width: 30; }
.hit { fill: none; stroke: #000; stroke-opacity: 0; stroke-width: 11; pointer-events: stroke; }
.must .line { stroke-width: 3.6; }
.closed .line { stroke-width: 1.8; stroke-dasharray: 0.1 4.2; }
.cross { fill: none; stroke-width: 1.9; stroke-linecap: round; }
.idle .line { stroke-width: 1; }
.idle.closed .line { stroke-width: 1.6; }
.check .line, .first-car .line { stroke-width: 3.2; }
.joining .line { stroke-width: 2; stroke-dasharray: 8 4; }
.balancing .line { stroke-width: 2.2; stroke-dasharray: 0.1 4.2; }
.second-car .line { stroke-width: 3.2; stroke-dasharray: 9 4.5; stroke-linecap: butt; }
.pill { stroke-width: 1.1; }
.number { font-size: 8px; font-weight: bold; }
.ring { fill: none; stroke-width: 2.2; }
.rule { fill: none; stroke-width: 1; }
.grid { fill: none; stroke-width: 0.7; }
.floor .line { stroke-width: 2.4; stroke-dasharray: 7 4; }
.cost .line { stroke-width: 2.8; }
.chart text { font-size: 12px; }
.chart text.axis { font-size: 13px; }
""".replace("FONT", FONT)


def _colours(palette: Mapping[str, str], parts: Sequence[str]) -> str:
    rules = """\
text { fill: ink; stroke: none; }
text.halo { stroke: paper; }
.subtitle, .note text, .chart text { fill: soft; }
.sheet { fill: paper; }
.dot { fill: paper; stroke: ink; stroke-width: 1.3; }
.corner.plain .dot { stroke: soft; }
.name text { fill: soft; }
.may .line { stroke: may; } .may .head { fill: may; }
.must .line { stroke: must; } .must .head { fill: must; }
.closed .line, .cross { stroke: closed; } .closed .head { fill: closed; }
.idle .line { stroke: faint; } .idle .head { fill: faint; }
.idle.closed .line, .idle .cross { stroke: closed; }
.pill { fill: paper; }
.check .line, .check .pill { stroke: check; } .check .head, .check .pill { fill: check; }
.check .number { fill: paper; }
.joining .line, .joining .pill { stroke: joining; } .joining .head, .joining .number { fill: joining; }
.balancing .line, .balancing .pill { stroke: balancing; } .balancing .head, .balancing .number { fill: balancing; }
.first-car .line, .floor .line { stroke: first-car; } .first-car .head { fill: first-car; }
.second-car .line, .cost .line { stroke: second-car; } .second-car .head { fill: second-car; }
.floor .bead { fill: paper; stroke: first-car; stroke-width: 2; } .cost .bead { fill: second-car; }
.chart.floor text { fill: first-car; } .chart.cost text { fill: second-car; }
.ring, .rule { stroke: ink; }
.scale .block { fill: ink; stroke: ink; } .scale .blank { fill: paper; stroke: ink; }
.grid { stroke: faint; } .gap { fill: faint; fill-opacity: 0.35; }
.shown .hit { stroke: glow; stroke-opacity: 0.9; }"""
    for number, tint in enumerate(parts):
        rules += f"\n.part-{number} .tint {{ stroke: {tint}; }} .part-{number} .swatch {{ fill: {tint}; }}"
    for name in sorted(palette, key=len, reverse=True):
        for mark in (";", " "):
            rules = rules.replace(f": {name}{mark}", f": {palette[name]}{mark}")
    return rules


def _scoped(rules: str, scope: str) -> str:
    """The rules, each selector below `scope`."""
    scoped = []
    for rule in rules.replace("}", "}\n").splitlines():
        rule = rule.strip()
        if rule:
            selectors, body = rule.split("{", 1)
            below = ", ".join(f"{scope} {selector.strip()}" for selector in selectors.split(","))
            scoped.append(f"{below} {{{body}")
    return "\n".join(scoped)


def stylesheet(scope: str = ".postman") -> str:
    """The style of all drawings: light, and dark on a screen that asks for it, never in print."""
    dark = _scoped(_colours(DARK, DARK_PARTS), scope)
    return (
        f"{_scoped(_SHAPES, scope)}\n{_scoped(_colours(LIGHT, LIGHT_PARTS), scope)}\n"
        f"@media screen and (prefers-color-scheme: dark) {{\n{dark}\n}}\n"
    )
