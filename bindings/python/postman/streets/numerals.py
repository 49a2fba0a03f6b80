"""Whole numbers as people write them."""

from __future__ import annotations

BEYOND = 10**18
"""What stands for every number that is larger still: it is beyond all limits too."""


def whole_of(text: str) -> int | None:
    """The number that is written in plain digits, or None for another text.

    One of very many digits is BEYOND, and not what it says: Python does not read it.
    """
    if not (text.isascii() and text.isdigit()):
        return None
    digits = text.lstrip("0")
    return int(digits or "0") if len(digits) < len(str(BEYOND)) else BEYOND
