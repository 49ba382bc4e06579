"""`propdesk blame`: which constraints of a model can't all hold, and which to give up.

Each constraint of the model is a premise of its own, named by its line. Conflicts and repairs are
those of the workbench, with their certificate; the model is then solved without the constraints
that the cheapest repair gives up.
"""

import sys
from collections.abc import Iterable, Iterator, Sequence
from dataclasses import dataclass
from pathlib import Path

from propbench.clock import Clock
from propbench.files import write_file
from propbench.flatzinc.building import Built
from propbench.flatzinc.compiling import Compiled, compiled
from propbench.flatzinc.floats import EXACT
from propbench.flatzinc.picture import dot_of, draw
from propbench.flatzinc.webpage import page_of
from propbench.flatzinc.solving import Wanted, solve
from propbench.flatzinc.writing import solution
from propbench.plain import PlainWorkbench
from propbench.questions.conflicts import (
    Conflicts,
    Repair,
    Repairs,
    SetSearch,
    find_both,
    find_repairs,
)
from propbench.showing import printable, shown


# This part of the time is for conflicts and repairs, the rest for a solution.
_SHARE = 0.75


@dataclass(frozen=True)
class BlameOptions:
    """What is asked of a model: which constraints to keep, and how much of all that there is."""

    keep: Sequence[str] = ()
    most: int = 100
    seconds: float | None = None
    picture: Path | None = None
    certificate: Path | None = None
    relax: Path | None = None


def blame_file(model: Path, data: Sequence[Path], asked: BlameOptions, program: str | None) -> int:
    """Prints the conflicts and repairs of a model, and a solution without what the cheapest gives
    up. Gives the exit status: 0, and 1 where it wasn't found out in time, or no certificate can
    show it. Raises ValueError, OSError, and as `Session` does."""
    made = compiled(model, data)
    with PlainWorkbench(program) as workbench:
        built = Built(made.flat, workbench)
        clock = Clock(asked.seconds, None)
        conflicts, repairs = blamed(built, made, asked)
        lines = list(report(built, conflicts, repairs, clock.seconds_left()))
    for line in lines:
        print(shown(line))
    if asked.relax is not None:
        _relax(asked.relax, made, repairs)
    if asked.picture is not None and asked.picture.suffix == ".html":
        write_file(asked.picture, page_of(made, conflicts, repairs, lines))
    elif asked.picture is not None:
        draw(asked.picture, dot_of(conflicts, repairs, made.texts))
    if asked.certificate is not None:
        try:
            repairs.certificate.save(asked.certificate)
        except ValueError as error:
            print(f"propdesk: {error}", file=sys.stderr)
            return 1
    return 0 if repairs.complete else 1


def _relax(path: Path, made: Compiled, repairs: Repairs) -> None:
    """Writes the model without what the cheapest repair gives up. Raises ValueError where there is
    none, or no model but FlatZinc."""
    if not made.source:
        raise ValueError("what is FlatZinc already has no model that could be written anew")
    if not repairs:
        raise ValueError(f"no repair is known, so {path} isn't written")
    write_file(path, made.without(repairs[0]))


def blamed(built: Built, made: Compiled, asked: BlameOptions) -> tuple[Conflicts, Repairs]:
    """The conflicts and repairs among the constraints of a model."""
    keep = [name for name in built.workbench.premises if _is_kept(name, asked.keep)]
    model = built.workbench.model
    seconds = None if asked.seconds is None else asked.seconds * _SHARE
    clock, is_stepwise = Clock(seconds, None), EXACT in built.workbench.premises
    if is_stepwise:
        # (what can't hold of real numbers is asked for)
        built.workbench.kick(EXACT)
    conflicts, repairs = find_both(model, SetSearch(asked.most, keep, seconds), made.texts)
    weights = {name: it for name, it in made.weights.items() if name in built.workbench.premises}
    if weights:
        search = SetSearch(asked.most, keep, clock.seconds_left())
        repairs = find_repairs(model, weights, search)
    if is_stepwise:
        built.workbench.bring(EXACT)
    return conflicts, repairs


def _is_kept(name: str, keep: Iterable[str]) -> bool:
    """Whether a constraint is to be kept: by its whole name, or by what that begins with."""
    return any(name == each or name.startswith((f"{each},", f"{each} (")) for each in keep)


def report(
    built: Built, conflicts: Conflicts, repairs: Repairs, seconds: float | None
) -> Iterator[str]:
    """What is to blame, and a solution without it, which is looked for in these seconds."""
    yield str(conflicts)
    if not conflicts:
        return
    yield str(repairs)
    if repairs:
        yield from _repaired(built, repairs[0], seconds)


def _repaired(built: Built, repair: Repair, seconds: float | None) -> Iterator[str]:
    workbench = built.workbench
    for name in repair:
        workbench.kick(name)
    found = solve(built, Wanted(seconds=seconds))
    for name in repair:
        workbench.bring(name)
    without = printable(f"Without {repair}")
    if not found.plans:
        yield f"{without} no solution was found in time."
        return
    sort = built.flat.goal.sort
    is_best = sort != "satisfy" and found.is_complete
    yield f"{without}, {'the best' if is_best else 'a'} solution:"
    for line in solution(built, found.plans[0]):
        yield f"  {line}"
