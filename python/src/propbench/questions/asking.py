"""How a question is asked: with a time, with an end at Ctrl-C, and of cells by name."""

from collections.abc import Callable, Collection, Iterable, Sequence
from typing import Protocol, TypeVar

from propbench.clock import Clock
from propbench.given import names_given
from propbench.nearby import near_names
from propbench.program import OutOfTime
from propbench.questions.model import Model
from propbench.questions.trial import Trial
from propbench.showing import quoted

AnyResult = TypeVar("AnyResult")


class Named(Protocol):
    """A cell of the user's."""

    @property
    def name(self) -> str:
        """The name that the user gave it."""
        ...


# A cell, or its name; and several, of which the first matters most.
CellLike = str | Named
Cells = Sequence[Named] | list[str] | tuple[str, ...]


class Interrupted(KeyboardInterrupt):
    """A question was ended by Ctrl-C. `so_far` is what was known by then, a result that is not
    complete; the session goes on."""

    def __init__(self, so_far: object) -> None:
        super().__init__(str(so_far))
        self.so_far = so_far


def answered(run: Callable[[], None], result: Callable[[], AnyResult]) -> AnyResult:
    """The result of a question after its run, or as far as that came. Raises Interrupted."""
    try:
        run()
    except OutOfTime:
        return result()
    except KeyboardInterrupt:
        raise Interrupted(result()) from None
    return result()


def tried(trial: Trial, run: Callable[[], None], result: Callable[[], AnyResult]) -> AnyResult:
    """The same of a question that is asked in a trial, which ends with it."""
    with trial:
        try:
            return answered(run, result)
        finally:
            trial.clock.end()


def tried_by(clock: Clock, run: Callable[[], None], result: Callable[[], AnyResult]) -> AnyResult:
    """The same of a question with this clock, which ends with it."""
    try:
        return answered(run, result)
    finally:
        clock.end()


def so_far(ask: Callable[[], AnyResult], kind: type[AnyResult]) -> AnyResult:
    """The result of a question, or what was known of it where it was interrupted. Raises
    Interrupted where it had no result of this kind yet."""
    try:
        return ask()
    except Interrupted as stopped:
        if isinstance(stopped.so_far, kind):
            return stopped.so_far
        raise


def cell_named(model: Model, cell: CellLike) -> str:
    """The name of a cell of the model. Raises NoSuchName, ValueError for a cell that is gone, and
    TypeError for what is no cell."""
    name = cell if isinstance(cell, str) else getattr(cell, "name", None)
    if not isinstance(name, str):
        raise TypeError(f"{cell!r} is no cell, nor the name of one")
    _demand(name, model.cells(), "cell")
    model.check_cell(cell)
    return name


def whole_named(model: Model, cell: CellLike) -> str:
    """The name of a cell of the model that is no measured quantity. Raises as `cell_named`, and
    TypeError for a quantity."""
    name = cell_named(model, cell)
    if model.is_measured(name):
        raise TypeError(
            f"{quoted(name)} is measured, and no plan has a real number: `w.shave({name})` tells "
            "between which it lies"
        )
    return name


def cells_given(model: Model, cells: str | Iterable[CellLike]) -> Iterable[CellLike]:
    """Cells that are given one by one, or by their names in one text, as `names_given` has them."""
    return names_given(cells, model.cells()) if isinstance(cells, str) else cells


def premises_named(model: Model, names: str | Iterable[str]) -> list[str]:
    """The names of premises of the model, as `names_given` has them. Raises NoSuchName for
    another."""
    known = model.premises()
    found = list(names_given(names, known))
    for name in found:
        _demand(name, known, "premise")
    return found


class NoSuchName(ValueError):
    """There is no cell, or no premise, of that name."""


def _demand(name: str, known: Collection[str], what: str) -> None:
    if name in known:
        return
    near = near_names(name, known)
    hint = f" Did you mean {' or '.join(near)}?" if near else ""
    raise NoSuchName(f"There is no {what} {quoted(name)}.{hint}")
