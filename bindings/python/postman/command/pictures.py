"""The option --picture, and files that a person does not edit: pictures and reports. These are written over."""

from __future__ import annotations

from argparse import ArgumentParser, ArgumentTypeError
from collections.abc import Callable
from pathlib import Path
from types import ModuleType
from typing import Any

from .files import write_files
from .output import Output


def add_picture(parser: ArgumentParser, what: str) -> None:
    """--picture, which writes SVG."""
    words = f"also write a picture of {what} to this file"
    parser.add_argument("--picture", metavar="SVG", type=named(".svg"), help=words)


def named(suffix: str) -> Callable[[str], str]:
    """A file name with this end: what is written over then is no street list."""

    def checked(text: str) -> str:
        if Path(text).suffix.lower() != suffix:
            raise ArgumentTypeError(f"{text} does not end in {suffix}")
        return text

    return checked


def write_picture(output: Output, path: str | None, draw: Callable[[ModuleType], Any]) -> None:
    """Writes the picture that `draw` draws with the module `picture`, which is imported only if one was asked for."""
    if path is None:
        return
    from .. import picture

    write_made(output, path, picture.svg_file(draw(picture)), "the picture")


def write_made(output: Output, path: str, text: str, what: str) -> None:
    """Writes a file that was made, over one that was made before."""
    write_files([(path, text.encode("utf-8"))], force=True)
    output.note(f"{path}: {what}")
