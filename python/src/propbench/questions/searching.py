"""The search for a plan in points, or for contradictions in cases that cover all that may be.

The program does it by choices that cover the values of the user's cells, as long as it has room for
more of these; beyond that it goes on here, by cases of cells within one another.
"""

from collections.abc import Iterable, Sequence

from propbench.program import OutOfTime
from propbench.questions.model import Plan
from propbench.questions.outcomes import Cannot, Fits, Fork, Open, Outcome
from propbench.questions.rooms import Room, around, halves, room_left, single
from propbench.questions.trial import Case, Seen, Trial
from propbench.replies import Contradiction, Settled
from propbench.values import Held

# No more cases of a search lie within one another.
_DEEPEST = 250
_NO_TIME = Open("there was no time for more")


def decided(trial: Trial, premises: Iterable[str], told: Sequence[Case] = ()) -> Outcome:
    """Whether there is a plan with these premises, within what is supposed."""
    try:
        return _searched(trial, tuple(premises), tuple(told), 0)
    except OutOfTime:
        return _NO_TIME


def decided_each(
    trial: Trial, premises: Sequence[str], many: Sequence[tuple[Case, ...]]
) -> list[Outcome]:
    """The same for each of these, which are tried in one go."""
    try:
        looked = zip(many, trial.look_each(premises, many))
    except OutOfTime:
        return [_NO_TIME for _ in many]
    quick = [(told, _quickly(trial, premises, seen)) for told, seen in looked]
    return [outcome or decided(trial, premises, told) for told, outcome in quick]


def _quickly(trial: Trial, premises: Sequence[str], seen: Seen) -> Outcome | None:
    """What comes of a search that needs no more than what is seen."""
    if isinstance(seen, Contradiction):
        return Cannot(frozenset(seen.premises), None)
    return _plan_in(trial, premises, seen)


def _plan_in(trial: Trial, premises: Sequence[str], seen: Seen) -> Fits | None:
    """The plan of what is left for each cell, where that is one value each and all holds."""
    if not isinstance(seen, dict):
        return None
    values = {cell: value for cell, held in seen.items() if (value := single(held)) is not None}
    if len(values) < len(seen):
        return None
    plan = _points(trial, values)
    return None if trial.model.violated(plan, premises) else Fits(plan, values)


def _searched(
    trial: Trial, premises: tuple[str, ...], told: tuple[Case, ...], depth: int
) -> Outcome:
    """What comes of a search, which is a case of so many others."""
    while not trial.clock.is_over():
        trial.clock.tick()
        seen = trial.look(premises, told)
        if isinstance(seen, Contradiction):
            return Cannot(frozenset(seen.premises), None)
        if not isinstance(seen, dict):
            break
        loose = [cell for cell, held in seen.items() if single(held) is None]
        if not loose:
            fits = _plan_in(trial, premises, seen)
            return fits or _forked(trial, premises, told, _beside(trial, seen, told), depth)
        if trial.cover_forks(seen):
            continue
        corner = _corner(trial, premises, told, seen)
        if corner:
            return corner
        if not trial.cover_some(loose):
            return _forked(trial, premises, told, _halved(trial, loose, seen, told), depth)
    return _NO_TIME


def _corner(
    trial: Trial, premises: Sequence[str], told: Sequence[Case], held: dict[str, Held]
) -> Fits | None:
    """The plan in which each cell has the lowest value that is left, where that is one. The program
    is asked of it only where all holds that is stated."""
    values = trial.lowest(held)
    if trial.model.violated(_points(trial, values), premises):
        return None
    seen = trial.look_at_corner(premises, told, held, values)
    return Fits(_points(trial, values), values) if isinstance(seen, Settled) else None


def _points(trial: Trial, values: dict[str, str]) -> Plan:
    """A plan, by values as lines say them."""
    return {cell: trial.model.point(cell, value) for cell, value in values.items()}


def _halved(
    trial: Trial, loose: Iterable[str], held: dict[str, Held], told: Sequence[Case]
) -> tuple[str, list[Room]] | None:
    """The smallest of these cells in halves, None where all are symbols."""
    known = trial.known(told)
    rooms = {cell: room_left(held[cell], known[cell]) for cell in loose if cell in known}
    small = sorted((trial.turn(cell, room), cell) for cell, room in rooms.items() if room)
    if not small:
        return None
    cell = small[0][1]
    return cell, halves(known[cell], rooms[cell] or known[cell])


def _beside(
    trial: Trial, held: dict[str, Held], told: Sequence[Case]
) -> tuple[str, list[Room]] | None:
    """A cell in the value that is left and what lies beside, None where no cell has others."""
    for cell, room in trial.known(told).items():
        if len(room) > 1:
            return cell, around(room, str(held[cell]))
    return None


def _forked(
    trial: Trial,
    premises: tuple[str, ...],
    told: tuple[Case, ...],
    fork: tuple[str, list[Room]] | None,
    depth: int,
) -> Outcome:
    """What comes of the cases of a cell."""
    if fork is None or depth >= _DEEPEST:
        return Open("the program settles on values that do not hold")
    cell, parts = fork
    # (The cases cover what is left of the cell only where it is what it was supposed to be.)
    names = frozenset(trial.cases_of([case for case in told if case[0] == cell][-1:]))
    trees = []
    left: Open | None = None
    for part in parts:
        outcome = _searched(trial, premises, (*told, (cell, part)), depth + 1)
        if isinstance(outcome, Fits):
            return outcome
        if isinstance(outcome, Open):
            left = outcome
            continue
        (case,) = trial.cases_of([(cell, part)])
        if case not in outcome.names:
            return outcome
        names |= outcome.names - {case}
        trees.append((str(part), outcome.tree))
    return left or Cannot(names, Fork(trial.cell_line[cell], tuple(trees)))
