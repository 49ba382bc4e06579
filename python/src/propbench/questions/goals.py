"""Several goals, the first before the second: the best that one number can be, and then the best of
another in the plans that have it."""

from collections.abc import Iterator, Mapping, Sequence
from contextlib import suppress
from dataclasses import dataclass, replace
from typing import TYPE_CHECKING

from propbench.clock import Clock
from propbench.given import names_given
from propbench.questions.asking import CellLike, Interrupted, tried_by, whole_named
from propbench.questions.bench import Bench
from propbench.questions.bounding import LEAST, Optimum, reasons_of
from propbench.questions.certificate import Certificate
from propbench.questions.ends import find_optimum
from propbench.questions.model import Model, Plan
from propbench.questions.planned import Planned, Scheduled
from propbench.questions.shown import listed
from propbench.words import MOST_NUMBER

if TYPE_CHECKING:
    from concurrent.futures import Executor


@dataclass(frozen=True, repr=False)
class Optima(Planned):
    """The least or greatest values of several cells, one after the other: of the first over all
    plans, and of each other over those plans that have the values before it.

    `steps` has an `Optimum` for each, as far as there was time; `values` are their values. `plan`,
    `choices` and `schedule` are those of the last plan that was found. `proved` says that each
    value is, by what the premises `because` say. Each step has a certificate of its own.

    >>> w = Workbench()
    >>> x, y = w.number("x", 3, 9), w.number("y", 0, 9)
    >>> w.require(x + y >= 10)
    >>> print(w.least([x, y]))
    The least x is 3, and then the least y is 7:
      cell  value
      x     3
      y     7
    """

    cells: tuple[str, ...]
    sort: str
    steps: tuple[Optimum, ...]
    because: tuple[str, ...] = ()

    @property
    def _last(self) -> Optimum | None:
        """The last step that has a plan."""
        return next((step for step in reversed(self.steps) if step.plan is not None), None)

    @property
    def values(self) -> tuple[int, ...]:
        """The values, as far as they were found.

        >>> w = Workbench()
        >>> x, y = w.number("x", 3, 9), w.number("y", 0, 9)
        >>> w.require(x + y >= 10)
        >>> w.least([x, y]).values
        (3, 7)
        """
        return tuple(step.value for step in self.steps if step.value is not None)

    @property
    def plan(self) -> Plan | None:
        """The values of all cells in the last plan that was found, None where there is none.

        >>> w = Workbench()
        >>> x, y = w.number("x", 3, 9), w.number("y", 0, 9)
        >>> w.require(x + y >= 10)
        >>> w.greatest([x, y]).plan
        {'x': 9, 'y': 9}
        """
        return self._last.plan if self._last else None

    @property
    def choices(self) -> Mapping[str, object]:
        """For each choice the alternative that this plan takes.

        >>> w = Workbench()
        >>> x, y = w.number("x", 3, 9), w.number("y", 0, 9)
        >>> w.choose("more", {"of x": [x >= 7], "of y": [y >= 7]})
        >>> w.least([x, y]).choices
        {'more': 'of y'}
        """
        return self._last.choices if self._last else {}

    @property
    def schedule(self) -> Scheduled | None:  # type: ignore[override]  # (that of the last plan)
        """This plan of a project's tasks.

        >>> w = Workbench()
        >>> p = w.project(days=30)
        >>> venue = p.task("venue", 3)
        >>> w.least([p.end, venue.start]).schedule.end
        3
        """
        return self._last.schedule if self._last else None

    @property
    def proved(self) -> bool:
        """Whether there is nothing better, or no plan at all.

        >>> w = Workbench()
        >>> x, y = w.number("x", 3, 9), w.number("y", 0, 9)
        >>> w.least([x, y]).proved
        True
        """
        is_all = len(self.steps) == len(self.cells) or self.plan is None
        return is_all and bool(self.steps) and all(step.proved for step in self.steps)

    @property
    def complete(self) -> bool:  # type: ignore[override]  # (what `proved` says)
        """Whether that is proved.

        >>> w = Workbench()
        >>> x, y = w.number("x", 3, 9), w.number("y", 0, 9)
        >>> w.least([x, y]).complete
        True
        """
        return self.proved

    @property
    def certificate(self) -> Certificate:
        """That of one goal. Of several each of `steps` has its own: so this raises ValueError.

        >>> w = Workbench()
        >>> x, y = w.number("x", 3, 9), w.number("y", 0, 9)
        >>> [step.certificate.check() for step in w.least([x, y]).steps]
        [True, True]
        """
        if len(self.steps) == 1:
            return self.steps[0].certificate
        raise ValueError("each goal has a certificate of its own: `.steps[0].certificate`")

    def headline(self) -> str:
        told = [step.headline().rstrip(":.") for step in self.steps]
        told[1:] = [_lower(each, self.cells) for each in told[1:]]
        says = ", and then ".join(told)
        left = self.cells[len(self.steps) :]
        if left and self.plan is not None:
            says += f"; there was no time for {listed(left)}"
        return f"{says}{'.' if self.plan is None else ':'}"

    def heads(self) -> Sequence[str]:
        return ("cell", "value")

    def rows(self) -> Sequence[Sequence[object]]:
        return [*(self.plan or {}).items(), *self.choices.items()]


def _lower(said: str, cells: Sequence[str]) -> str:
    """A sentence within another; a cell keeps its name."""
    return said if said.startswith(tuple(cells)) else f"{said[0].lower()}{said[1:]}"


def cells_of(model: Model, given: object) -> list[CellLike] | None:
    """The cells where several are given, in a list or by their names in one text; None where it is
    one. Raises ValueError for a list of none."""
    if isinstance(given, str):
        names = names_given(given, model.cells())
        return list(names) if len(names) > 1 else None
    if not isinstance(given, Sequence | Iterator):
        return None
    several = list(given)
    if not several:
        raise ValueError("say of which cells, the one that matters most in front")
    return several


@dataclass(frozen=True)
class Pursuit:
    """How bests are asked for: the least or the greatest, in which time, and by whom, where that is
    not this process."""

    sort: str
    clock: Clock
    executor: "Executor | None" = None


def find_optima(bench: Bench, cells: Sequence[CellLike], how: Pursuit) -> Optima:
    """The best of each of these cells, one after the other, as far as there is time."""
    names = [whole_named(bench.model, cell) for cell in cells]
    steps: list[Optimum] = []

    def run() -> None:
        with bench._set_aside():
            while len(steps) < len(names) and (not steps or _goes_on(steps[-1], how.clock)):
                if steps:
                    told.append(told_within(bench, steps[-1]))
                ask(bench, names[len(steps)], how, steps)

    told: list[str] = []
    return tried_by(how.clock, run, lambda: _joined(bench.model, names, how.sort, steps, told))


def _goes_on(step: Optimum, clock: Clock) -> bool:
    return step.proved and step.value is not None and not clock.is_over()


def ask(bench: Bench, cell: str, how: Pursuit, steps: list[Optimum]) -> Optimum:
    """Adds the best of one cell to the steps, in the time that is left; also what is known of it
    where that is interrupted. Raises Interrupted."""
    clock = Clock(how.clock.seconds_left(), how.clock.progress)
    try:
        found = find_optimum(bench.model, cell, how.sort, clock, how.executor)
    except Interrupted as stopped:
        if isinstance(stopped.so_far, Optimum):
            steps.append(stopped.so_far)
        raise
    steps.append(found)
    return found


def _joined(
    model: Model, names: Sequence[str], sort: str, steps: Sequence[Optimum], told: Sequence[str]
) -> Optima:
    by = dict.fromkeys(name for step in steps for name in step.because if name not in told)
    order = [name for name in model.premises() if name in by]
    return Optima(tuple(names), sort, explained(model, steps), tuple(order))


def explained(model: Model, steps: Sequence[Optimum]) -> tuple[Optimum, ...]:
    """The same steps, where the schedule of the last plan tells of each goal why it is no less."""
    last = next((step for step in reversed(steps) if step.plan is not None), None)
    if last is None or last.plan is None or len(steps) < 2:
        return tuple(steps)
    told = replace(last, schedule=model.scheduled(last.plan, last.choices, reasons_of(steps)))
    return tuple(told if step is last else step for step in steps)


def told_within(bench: Bench, step: Optimum) -> str:
    """Has a workbench keep to what was found of a cell, by a new premise, which this names."""
    assert step.value is not None
    if step.sort == LEAST:
        return told_at_most(bench, step.cell, step.value)
    return _told(bench, step.cell, (step.value, _ends(bench.model, step.cell)[1]))


def told_at_most(bench: Bench, cell: str, most: int) -> str:
    """The same, that a cell is so much at the most."""
    return _told(bench, cell, (_ends(bench.model, cell)[0], most))


def _ends(model: Model, cell: str) -> tuple[int, int]:
    room = model.candidates(cell)
    return (room[0], room[-1]) if isinstance(room, range) else (-MOST_NUMBER, MOST_NUMBER)


def _told(bench: Bench, cell: str, ends: tuple[int, int]) -> str:
    name = f"the best {cell}"
    while not _is_free(bench.model, name, cell, ends):
        name += "'"
    bench.tell(name, bench.cell(cell), *ends)
    return name


def _is_free(model: Model, name: str, cell: str, ends: tuple[int, int]) -> bool:
    """Whether a premise may be called so: neither another is, nor a choice."""
    if name in model.premises():
        return False
    with suppress(ValueError):
        model.telling(name, cell, *ends)
        return True
    return False


def least_of(bench: Bench, cell: object, how: Pursuit) -> Optimum | Optima:
    """The best of a cell, or of several one after the other."""
    several = cells_of(bench.model, cell)
    if several is None:
        return find_optimum(
            bench.model, cell, how.sort, how.clock, how.executor  # type: ignore[arg-type]
        )
    return find_optima(bench, several, how)
