"""Progress bars on standard error, one a line, drawn anew in place."""

from __future__ import annotations

import shutil
import sys
from time import monotonic

PAUSE = 0.05
"""The seconds between two drawings."""


class Bars:
    """Bars by their names; on anything but a terminal they are not drawn."""

    def __init__(self, names: list[str], drawn: bool) -> None:
        self.names = names
        self.drawn = drawn
        self.done = [0.0] * len(names)
        self.told = [""] * len(names)
        self.lines = 0
        self.last = 0.0

    def set(self, number: int, done: float, told: str) -> None:
        """How far a bar is, from 0 to 1, and what stands behind it."""
        self.done[number], self.told[number] = done, told
        if self.drawn and monotonic() - self.last >= PAUSE:
            self.draw()

    def draw(self) -> None:
        screen = shutil.get_terminal_size()
        names = max(map(len, self.names))
        told = max(max(map(len, self.told)), 12)
        width = max(5, min(40, screen.columns - names - told - 6))
        # More bars than lines cannot be drawn in place: the last ones are shown.
        shown = list(range(len(self.names)))[-max(1, screen.lines - 1) :]
        lines = []
        for number in shown:
            full = round(width * self.done[number])
            bar = "#" * full + "." * (width - full)
            lines.append(f"{self.names[number]:{names}} [{bar}] {self.told[number]}"[: screen.columns - 1])
        up = f"\033[{self.lines}A" if self.lines else ""
        sys.stderr.write(up + "".join(f"\033[2K{line}\n" for line in lines))
        sys.stderr.flush()
        self.lines, self.last = len(lines), monotonic()

    def end(self) -> None:
        """Draws the last state, which stays on the screen."""
        if self.drawn and self.names:
            self.draw()
