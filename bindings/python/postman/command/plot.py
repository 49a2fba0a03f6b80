"""A plot in letters, for terminals."""

from __future__ import annotations

from collections.abc import Sequence

HEIGHT = 12
STEP = 10
"""The letters between two columns."""


def plot(labels: Sequence[str], series: Sequence[tuple[str, str, Sequence[int]]]) -> str:
    """Series of numbers over labels. Each has a letter, a name and its numbers; the first is drawn over the others."""
    low = min(min(numbers) for _, _, numbers in series)
    high = max(max(numbers) for _, _, numbers in series)
    margin = max(len(f"{low:,}"), len(f"{high:,}"))
    grid = [[" "] * (STEP * len(labels)) for _ in range(HEIGHT)]
    for letter, _, numbers in reversed(series):
        for column, number in enumerate(numbers):
            grid[height_of(number, low, high)][STEP * column + STEP // 2] = letter
    lines = []
    for height in range(HEIGHT - 1, -1, -1):
        label = {HEIGHT - 1: f"{high:,}", 0: f"{low:,}"}.get(height, "")
        lines.append(f"{label:>{margin}} |{''.join(grid[height])}".rstrip())
    lines.append(" " * margin + " +" + "-" * (STEP * len(labels)))
    lines.append((" " * (margin + 2) + "".join(f"{label:^{STEP + 1}}"[:STEP] for label in labels)).rstrip())
    lines.append(" " * (margin + 2) + "   ".join(f"{letter} {name}" for letter, name, _ in series))
    return "\n".join(lines) + "\n"


def height_of(number: int, low: int, high: int) -> int:
    """The line of a number, 0 at the bottom."""
    return round((number - low) * (HEIGHT - 1) / (high - low)) if high > low else 0
