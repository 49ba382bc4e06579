"""Plans: the shortest of tasks on people who do one thing at a time, and all of a product of
choices; as a workbench, and by MiniZinc with Gecode."""

import re
import subprocess
import sys
import tempfile
from pathlib import Path

from propbench import Workbench
from propbench.planning import Task

sys.path.insert(0, str(Path(__file__).resolve().parents[2] / "tests"))

import peers  # noqa: E402
import puzzles  # noqa: E402

TASKS, PEOPLE = 20, 3


def drawn(seed: int) -> puzzles.Plan:
    """Tasks, the same for each seed."""
    return puzzles.plan(TASKS, PEOPLE, seed)


def shortest_here(plan: puzzles.Plan, seconds: float) -> int | None:
    """The length of the shortest plan by a workbench, None where that is not proved in time."""
    with Workbench() as w:
        p = w.project(days=puzzles.LONGEST, people=[f"p{i}" for i in range(PEOPLE)])
        tasks: list[Task] = []
        for number, days in enumerate(plan.long):
            before = [tasks[first] for first, second in plan.before if second == number]
            tasks.append(p.task(f"t{number}", days, who=f"p{number % PEOPLE}", after=before))
        best = w.least(p.end, seconds=seconds)
        return best.value if best.proved else None


def shortest_there(plan: puzzles.Plan) -> int:
    """The same by MiniZinc, with a truth for the order of each two tasks of one person."""
    printed = _solved(peers.model(plan))
    return int(re.findall(r"last = (\d+)", printed)[-1])


def all_here(sizes: tuple[int, ...]) -> int:
    """How many plans there are over numbers up to these sizes and their sum, by a workbench."""
    with Workbench() as w:
        cells = [w.number(f"x{i}", 1, size) for i, size in enumerate(sizes)]
        w.require(w.number("sum", 0, 100) == sum(cells[1:], cells[0]))
        found = w.plans(cells, most=20_000)
        assert found.complete
        return len(found)


def all_there(sizes: tuple[int, ...]) -> int:
    """The same by MiniZinc."""
    lines = [f"var 1..{size}: x{i};" for i, size in enumerate(sizes)]
    names = [f"x{i}" for i in range(len(sizes))]
    lines += ["var 0..100: total;", f"constraint total = {' + '.join(names)};", "solve satisfy;"]
    shown = " ".join(rf"\({name})" for name in names)
    return _solved("\n".join([*lines, rf'output ["at {shown}\n"];']), "-a").count("at ")


def _solved(model: str, *words: str) -> str:
    """What MiniZinc prints."""
    with tempfile.NamedTemporaryFile("w", suffix=".mzn") as file:
        file.write(model)
        file.flush()
        command = ["minizinc", "--solver", "gecode", *words, file.name]
        ran = subprocess.run(command, capture_output=True, text=True, check=True)
    assert "==========" in ran.stdout
    return ran.stdout
