"""Refusals as the command says them: the number, the trade word, and what it means in the list."""

from __future__ import annotations

from collections.abc import Callable, Iterator
from contextlib import contextmanager
from functools import partial

from ..refusal import Refusal
from ..streets.errors import shown
from ..streets.street_list import StreetList


class Refused(Exception):
    """A refusal in the list's own words."""

    def __init__(self, path: str, refusal: Refusal, sentence: str) -> None:
        self.refusal = refusal
        super().__init__(f"{shown(path)}: refusal {refusal.number}, {refusal.word}: {sentence}")


@contextmanager
def explained(streets: StreetList, how: Callable[[Refusal], str] | None = None) -> Iterator[None]:
    """Says what a refusal means in a list; `how` says it where the list alone does not tell."""
    try:
        yield
    except Refusal as refusal:
        if how is None:
            from ..streets.explain import explain

            how = partial(explain, streets)
        sentence = how(refusal)
        raise Refused(streets.path, refusal, sentence) from None
