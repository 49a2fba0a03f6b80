"""Runs the command, in this process or from a shell, for the tests."""

from __future__ import annotations

import io
import os
import subprocess
import sys
from contextlib import redirect_stderr, redirect_stdout
from typing import NamedTuple
from unittest import mock

from repository import PACKAGE, ROOT

from postman.command import main

TOWN = str(ROOT / "examples" / "town" / "streets.csv")
TOWN_FOLDER = ROOT / "examples" / "town"


class Done(NamedTuple):
    """What a run of the command ended with."""

    status: int
    out: str
    err: str


def postman(*argv: str, stdin: str | bytes = "") -> Done:
    """Runs the command in this process. Nothing is a terminal."""
    data = stdin.encode() if isinstance(stdin, str) else stdin
    out, err = io.TextIOWrapper(io.BytesIO(), "utf-8"), io.StringIO()
    with mock.patch("sys.stdin", io.TextIOWrapper(io.BytesIO(data), "utf-8")), redirect_stdout(out), redirect_stderr(
        err
    ):
        status = main([str(word) for word in argv])
        out.flush()
    return Done(status, out.buffer.getvalue().decode("utf-8", "surrogateescape"), err.getvalue())


def environment(**variables: str) -> dict[str, str]:
    """The environment with the package in place."""
    return {**os.environ, "PYTHONPATH": str(PACKAGE), **variables}


def from_shell(*argv: str, **options) -> subprocess.Popen:
    """Starts the command as a process of its own."""
    words = [sys.executable, "-m", "postman", *map(str, argv)]
    return subprocess.Popen(words, env=environment(), **options)
