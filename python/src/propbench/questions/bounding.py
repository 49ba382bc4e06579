"""The least and the greatest value of a cell in any plan, by bounds that close in on it."""

from collections.abc import Iterable, Mapping, Sequence
from dataclasses import dataclass, field, replace

from propbench.questions.certificate import Certificate, Evidence
from propbench.questions.model import GREATEST as GREATEST
from propbench.questions.model import LEAST as LEAST
from propbench.questions.model import Model, Plan
from propbench.questions.outcomes import Cannot, Fits, Fork, NothingFits
from propbench.questions.rooms import NumberRoom
from propbench.questions.planned import Planned, Scheduled
from propbench.questions.shown import NOT_REFUTED
from propbench.questions.searching import decided
from propbench.questions.trial import Trial
from propbench.showing import quoted
from propbench.words import MOST_NUMBER


@dataclass(frozen=True, repr=False)
class Optimum(Planned):
    """The least or greatest value of a cell in any plan.

    `value` is that of the best plan that was found, and `plan` has the values of all cells in it
    but quantities; both are None where none was found. `choices` has for each choice the
    alternative that the plan takes. `bound` is a number beyond which nothing fits. `proved` says
    that there is nothing better than `value`, or no plan at all where that is None; by what the
    premises `because` say, where the program searches itself. `schedule` is the plan of a project's
    tasks.

    >>> w = Workbench()
    >>> x = w.number("x", 3, 9)
    >>> print(w.least(x))
    The least x is 3:
      cell  value
      x     3
    """

    cell: str
    sort: str
    value: int | None
    plan: Plan | None
    bound: int | None
    proved: bool
    _certificate: Certificate | None
    choices: Mapping[str, object] = field(default_factory=dict)
    because: tuple[str, ...] = ()
    schedule: Scheduled | None = field(default=None, compare=False)

    def shown_by(self, certificate: Certificate | None) -> "Optimum":
        """The same with a certificate.

        >>> w = Workbench()
        >>> x = w.number("x", 3, 9)
        >>> w.least(x).shown_by(None).value
        3
        """
        return replace(self, _certificate=certificate)

    def seen_by(self, model: Model, plan: Plan) -> "Optimum":
        """The same with what a model knows of its plan in all cells.

        >>> w = Workbench()
        >>> x = w.number("x", 3, 9)
        >>> w.least(x).seen_by(w.model, {"x": 3}).choices
        {}
        """
        choices = model.chosen(plan)
        schedule = model.scheduled(plan, choices, reasons_of([self]))
        return replace(self, choices=choices, schedule=schedule)

    @property
    def complete(self) -> bool:  # type: ignore[override]  # (what `proved` says)
        """Whether that is proved.

        >>> w = Workbench()
        >>> x = w.number("x", 3, 9)
        >>> w.least(x).complete
        True
        """
        return self.proved

    def headline(self) -> str:
        best = "The least" if self.sort == LEAST else "The greatest"
        if self.value is None:
            says = f"no plan was found; that there is one is {NOT_REFUTED}"
            if self.proved:
                # (over propbench nothing is known of the premises)
                says = str(NothingFits.because_of(self.because)) if self.because else "nothing fits"
            return f"{best} {self.cell}: {says}."
        if self.proved:
            return f"{best} {self.cell} is {self.value}:"
        beyond = "less" if self.sort == LEAST else "more"
        last = "" if self.bound is None else f", to {self.bound}"
        return f"{self.cell} can be {self.value}; that it is {beyond}{last}, is {NOT_REFUTED}:"

    def heads(self) -> Sequence[str]:
        return ("cell", "value")

    def rows(self) -> Sequence[Sequence[object]]:
        return [*(self.plan or {}).items(), *self.choices.items()]


def reasons_of(steps: Iterable[Optimum]) -> dict[str, tuple[str, ...]]:
    """Of each cell whose least value is proved the premises why it is no less."""
    proved = (step for step in steps if step.sort == LEAST and step.proved)
    return {step.cell: step.because for step in proved if step.value is not None}


class Bounding:
    """The search for an optimum with some premises: its bounds as far as they are known."""

    def __init__(self, trial: Trial, premises: Sequence[str], cell: str, sort: str) -> None:
        """That of a cell for numbers."""
        room = trial.rooms[cell]
        assert isinstance(room, NumberRoom)
        self.trial, self.premises, self.cell, self.sort = trial, list(premises), cell, sort
        # (Seen from the other end, the greatest of the numbers is the least.)
        self._sign = 1 if sort == LEAST else -1
        self._low = room.low if sort == LEAST else -room.high
        self._best: int | None = None
        self.fits: Fits | None = None
        self.proved = False
        self.tree: Fork | None = None

    @property
    def value(self) -> int | None:
        """The best value that was found."""
        return None if self._best is None else self._sign * self._best

    @property
    def bound(self) -> int | None:
        """A number beyond which nothing fits, None where none is known."""
        return None if self._low == -MOST_NUMBER else self._sign * self._low

    @property
    def beyond_value(self) -> NumberRoom | None:
        """The values that are better than the best that was found, None where there are none."""
        if self._best is None or self._best == -MOST_NUMBER:
            return None
        return self.beyond(self._best - 1)

    def beyond(self, most: int) -> NumberRoom:
        """The values up to one, seen from this end."""
        return NumberRoom(-MOST_NUMBER, most) if self._sign == 1 else NumberRoom(-most, MOST_NUMBER)

    def run(self, known: Fits | None = None) -> None:
        """Closes in on the optimum, until it is found or the time is over; from a plan, where one
        is known."""
        first = known or decided(self.trial, self.premises)
        if isinstance(first, Cannot):
            self.proved, self.tree = True, first.tree
        if isinstance(first, Fits):
            self._find(first)
        while self._best is not None and not self.proved and self._close_in(self._best):
            continue

    def _find(self, fits: Fits) -> None:
        value = fits.plan[self.cell]
        assert isinstance(value, int)
        self._best, self.fits = self._sign * value, fits
        self.proved = self._best == -MOST_NUMBER
        self.trial.clock.tell(f"{self.cell}: {value} found, {self.bound} is the bound")

    def _close_in(self, best: int) -> bool:
        """Tries whether there is a plan in the better half; whether that was found out in time."""
        most = best - 1 if best <= self._low else (self._low + best - 1) // 2
        outcome = decided(self.trial, self.premises, [(self.cell, self.beyond(most))])
        if isinstance(outcome, Fits):
            self._find(outcome)
        elif isinstance(outcome, Cannot):
            self._low, self.tree = most + 1, outcome.tree
            self.proved = self._low == best
        return isinstance(outcome, Fits | Cannot) and not self.trial.clock.is_over()

    def show(self, evidence: Evidence) -> tuple[str, dict[str, object]] | None:
        """Adds what shows the bounds to the evidence, and gives the claim; None where nothing is
        known."""
        given = evidence.lines_of(self.premises)
        if self.fits is None:
            if not self.proved:
                return None
            evidence.add_tree(self.premises, [], self.tree)
            return "fails", {"given": given, "told": []}
        evidence.add_plan(self.premises, self.fits)
        cell = evidence.cells[self.cell]
        if self.bound is None:
            return "fits", {"given": given, "told": [[cell, str(self.value)]]}
        beyond = [[cell, str(self.beyond(self._low - 1))]]
        evidence.add_tree(self.premises, beyond, self.tree)
        best = {"cell": cell, "value": self.value, "bound": self.bound}
        return "optimum", {"given": given, "sort": self.sort, **best}

    def result(self) -> Optimum:
        """What is known by now."""
        evidence = Evidence.of(self.trial)
        claim = self.show(evidence)
        certificate = evidence.certificate([claim] if claim else [])
        plan = self.trial.shown(self.fits.plan) if self.fits else None
        known = self.value, plan, self.bound, self.proved
        found = Optimum(self.cell, self.sort, *known, certificate)
        return found if self.fits is None else found.seen_by(self.trial.model, self.fits.plan)


def bounding_in(trial: Trial, premises: Sequence[str], cell: str, sort: str) -> Bounding:
    """A search for an optimum in a trial, which ends where the cell is not for numbers; that raises
    ValueError."""
    is_number = isinstance(trial.rooms[cell], NumberRoom)
    if not is_number:
        trial.close()
    check_numbers(cell, is_number, sort)
    return Bounding(trial, premises, cell, sort)


def check_numbers(cell: str, is_number: bool, sort: str) -> None:
    """Raises ValueError where a cell is not for numbers."""
    if not is_number:
        raise ValueError(f"{quoted(cell)} is not for numbers, and only of these one is the {sort}")
