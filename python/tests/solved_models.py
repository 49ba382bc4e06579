"""The models of python/tests/models: what a solver says of each, in a form that can be compared.

Each `.mzn` has its FlatZinc beside it, as MiniZinc makes it by propbench.msc, and `answers.json`
has what Gecode says of it (python/measure/minizinc.py writes both).
"""

import hashlib
import json
import re
from collections.abc import Iterable
from pathlib import Path

MODELS = Path(__file__).parent / "models"
NAMES = sorted(path.stem for path in MODELS.glob("*.mzn"))


def answers() -> dict[str, dict[str, object]]:
    """What Gecode says of each model."""
    found: dict[str, dict[str, object]] = json.loads((MODELS / "answers.json").read_text())
    return found


def printed_in(output: str) -> list[str]:
    """The names of what a solver prints."""
    return sorted(set(re.findall(r"^(\w+) = ", output, re.MULTILINE)))


def solutions_in(output: Iterable[str], shown: Iterable[str]) -> list[str]:
    """The solutions in what a solver prints, each with the lines for these names, without
    spaces."""
    found: list[str] = []
    lines: dict[str, str] = {}
    for line in output:
        if line.startswith("-----"):
            found.append("".join(lines[name] for name in shown))
            lines = {}
        elif not line.startswith(("=", "%")):
            lines[line.split()[0]] = "".join(line.split())
    return sorted(found)


def answer(goal: str, output: str, shown: list[str]) -> dict[str, object]:
    """What a solver says: how many solutions there are, and a checksum of all, by these names; or
    the best value of the objective, None where there is none, which is printed as `objective`."""
    if goal != "satisfy":
        values = [int(each) for each in re.findall(r"^objective = (-?\d+);", output, re.MULTILINE)]
        best = (min if goal == "minimize" else max)(values) if values else None
        return {"goal": goal, "best": best}
    solutions = solutions_in(output.splitlines(), shown)
    digest = hashlib.sha256("\n".join(solutions).encode()).hexdigest()[:16]
    return {"goal": goal, "solutions": len(solutions), "shown": shown, "digest": digest}
