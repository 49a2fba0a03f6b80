"""A drawing written as SVG, with nothing that another file or program has to bring."""

from __future__ import annotations

from collections.abc import Iterable
from xml.sax.saxutils import escape, quoteattr

from .drawing import Area, Box, Dot, Drawing, Group, Label, Line, Point, Shape
from .style import stylesheet

_POINTS_PER_MM = 96 / 25.4


def svg_file(drawing: Drawing) -> str:
    """A file of its own, as large as the sheet on paper."""
    size = f'width="{drawing.width / _POINTS_PER_MM:.1f}mm" height="{drawing.height / _POINTS_PER_MM:.1f}mm"'
    page = f"@page {{ size: A4 {'landscape' if drawing.width > drawing.height else 'portrait'}; margin: 10mm; }}\n"
    style = f"<style>\n{page}{stylesheet()}</style>\n"
    return f'<?xml version="1.0" encoding="UTF-8"?>\n{_element(drawing, size, style)}\n'


def svg_element(drawing: Drawing, name: str = "") -> str:
    """An element for a page, whose style sheet holds the drawings' style; as wide as the page lets it be."""
    return _element(drawing, f"id={quoteattr(name)}" if name else "", "")


def _element(drawing: Drawing, attributes: str, style: str) -> str:
    box = f'viewBox="0 0 {_number(drawing.width)} {_number(drawing.height)}"'
    lines = [
        f'<svg xmlns="http://www.w3.org/2000/svg" class="postman" role="img" {attributes} {box}>',
        f"<title>{_text(drawing.title)}</title>",
        f"<desc>{_text(drawing.description)}</desc>",
        f'{style}<rect class="sheet" width="{_number(drawing.width)}" height="{_number(drawing.height)}"/>',
    ]
    lines.extend(_group(group) for group in drawing.groups)
    lines.append("</svg>")
    return "\n".join(lines)


def _group(group: Group) -> str:
    data = "".join(f" data-{name}={quoteattr(str(value))}" for name, value in group.data.items())
    title = f"<title>{_text(group.title)}</title>" if group.title else ""
    return f"<g class={quoteattr(group.classes)}{data}>{title}{''.join(_shape(shape) for shape in group.shapes)}</g>"


def _shape(shape: Shape) -> str:
    kind = f" class={quoteattr(shape.classes)}" if shape.classes else ""
    match shape:
        case Line(points):
            return f'<path{kind} d="{_path(points)}"/>'
        case Area(points):
            return f'<path{kind} d="{_path(points)}Z"/>'
        case Dot((x, y), radius):
            return f'<circle{kind} cx="{_number(x)}" cy="{_number(y)}" r="{_number(radius)}"/>'
        case Box((x, y), width, height, rounded):
            size = f'width="{_number(width)}" height="{_number(height)}"'
            return f'<rect{kind} x="{_number(x)}" y="{_number(y)}" {size} rx="{_number(rounded)}"/>'
        case Label((x, y), text, _, anchor, angle):
            turn = f' transform="rotate({_number(angle)} {_number(x)} {_number(y)})"' if angle else ""
            # Moved down by about half a letter's height: not every program knows other baselines.
            place = f'x="{_number(x)}" y="{_number(y)}" dy="0.35em" text-anchor="{anchor}"'
            return f"<text{kind} {place}{turn}>{_text(text)}</text>"
    raise TypeError(f"{shape!r} is no shape")


def _path(points: Iterable[Point]) -> str:
    return "M" + "L".join(f"{_number(x)} {_number(y)}" for x, y in points)


def _number(value: float) -> str:
    return f"{round(value, 1) + 0.0:g}"


def _text(text: str) -> str:
    """Text without what no XML may hold."""
    return escape("".join(letter if letter >= " " and letter not in "\ufffe\uffff" else " " for letter in text))
