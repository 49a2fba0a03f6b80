"""How many plan calls a second a loop in Python makes, beside one in C: `python3 tools/speed.py PLAN...`.

The two take turns, over the same library, on the processor's time; each figure is the best of five turns, and the last
column is Python's share. `cargo run --release --bin towns FOLDER` in tests/ writes the benchmark's towns as plans.
"""

from __future__ import annotations

import subprocess
import sys
import tempfile
import time
from pathlib import Path

ROOT = Path(__file__).resolve().parents[3]
sys.path.insert(0, str(ROOT / "bindings" / "python"))

from postman import plan_call  # noqa: E402

BUDGETS = (1, 10_000, 100_000)
TURNS = 5
SECONDS = 0.2


def of_c(program: Path, calls: int, budget: int, plan: Path) -> float:
    """Calls a second in C."""
    return float(subprocess.run([program, str(calls), str(budget), plan], check=True, capture_output=True).stdout)


def of_python(calls: int, budget: int, file: bytes) -> float:
    """Calls a second in Python."""
    begun = time.process_time()
    for _ in range(calls):
        plan_call(file, budget)
    return calls / (time.process_time() - begun)


def main(plans: list[str]) -> None:
    with tempfile.TemporaryDirectory() as folder:
        program = Path(folder) / "speed"
        sources = [ROOT / "bindings/c/speed.c", f"-I{ROOT / 'include'}", ROOT / "build/libpostman.a"]
        subprocess.run(["cc", "-std=c99", "-O2", *map(str, sources), "-o", program], check=True)
        print(f"{'plan':24} {'budget':>8} {'C':>9} {'Python':>9}  share")
        for plan in map(Path, plans):
            file = plan.read_bytes()
            for budget in BUDGETS:
                calls = max(5, int(SECONDS * of_python(5, budget, file)))
                turns = [(of_c(program, calls, budget, plan), of_python(calls, budget, file)) for _ in range(TURNS)]
                c, python = (max(of) for of in zip(*turns))
                print(f"{plan.stem:24} {budget:8} {c:9.0f} {python:9.0f}  {python / c:4.0%}")


if __name__ == "__main__":
    if len(sys.argv) < 2:
        sys.exit(__doc__)
    main(sys.argv[1:])
