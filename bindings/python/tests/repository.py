"""Where things are, for the tests. Importing it puts the package in place on the path."""

from __future__ import annotations

import os
import subprocess
import sys
from pathlib import Path

PACKAGE = Path(__file__).resolve().parent.parent
ROOT = PACKAGE.parent.parent
HEADER = ROOT / "include" / "postman.h"
BUILD = ROOT / "build"

if str(PACKAGE) not in sys.path:
    sys.path.insert(0, str(PACKAGE))

CASE_A = bytes.fromhex("10402001400141000003")
"""Document 01's case A: a street that must be driven, and one that leads back."""


def kept_plans() -> list[Path]:
    """The plans of the examples and those that are kept for the benchmark."""
    return sorted([*ROOT.glob("examples/*.plan"), *ROOT.glob("tests/plans/*.plan")])


def example(name: str) -> bytes:
    return (ROOT / "examples" / name).read_bytes()


def archive() -> Path:
    """The proved archive that the libraries are built from: LIBPROVED, or the one that `tools/library` made."""
    path = Path(os.environ.get("LIBPROVED") or ROOT / "target" / "staticlib" / "libproved.a")
    if not path.is_file():
        raise FileNotFoundError(f"there is no {path}: run `tools/library`, or set LIBPROVED")
    return path


def run(*command: str | Path, **options) -> subprocess.CompletedProcess[str]:
    """Runs a command that has to succeed."""
    done = subprocess.run([str(word) for word in command], capture_output=True, text=True, **options)
    if done.returncode != 0:
        raise AssertionError(f"{command} ended with {done.returncode}:\n{done.stdout}{done.stderr}")
    return done


def make(*words: str | Path) -> None:
    """Runs make in the repository, over the archive that is there."""
    run("make", "-C", ROOT, f"LIBPROVED={archive()}", *words)
