"""A workbench: cells, constraints and premises in Python, and what follows from them.

    from propbench import Workbench

    w = Workbench()
    days = w.number("days", 0, 60)
    price = w.number("price", 0, 9000)
    w.require(price >= 400 * days)
    w.require(price <= 2000, under="cheap")
    print(days.ask())  # days = 0..5 because of cheap
"""

from __future__ import annotations

import warnings
from collections.abc import Iterable, Iterator, Mapping, Sequence
from datetime import date
from typing import TYPE_CHECKING

from propbench.clock import Clock, Progress
from propbench.laboratory.bench import Laboratory
from propbench.measuring import stating
from propbench.measuring.quantities import Quantity, coverage_of
from propbench.measuring.readings import reading_of
from propbench.measuring.sensitivity import Improvements
from propbench.measuring.terms import Law
from propbench.model.answers import Answer
from propbench.model.cells import Cell
from propbench.model.expressions import Truth
from propbench.model.given import GivenValue, given_of
from propbench.model.nodes import Declared, Node
from propbench.model.seam import BenchModel
from propbench.plain import PlainWorkbench
from propbench.planning import Calendar, Project
from propbench.planning.by_hand import made_by_hand
from propbench.planning.schedule import schedule_in
from propbench.questions import Sensitivity
from propbench.questions.asking import CellLike

if TYPE_CHECKING:
    from propbench.model.saving import Noted, Saved
    from propbench.laboratory.adjustment import Adjustment
    from propbench.laboratory.report import Report
    from propbench.model.tabling import Table

# Seconds in which it is known how finely curves have to be told, or that isn't waited for.
_SOON = 2.0


class Workbench(PlainWorkbench, Laboratory):
    """A network of cells with constraints, some of them under premises, and what follows.

    What it does, by what it is for:

    - cells: `number`, `truth`, `element` (of a `domain`), `symbol`, `measured` with a unit; `cell`
      gives one by its name, and `cells` all.
    - what holds: `require` between cells, `fix` and `tell` for values, `choose` between
      alternatives; `law` and `read` for quantities; `project` for tasks and people,
      and `projects` all of these.
    - premises: with `under=` a statement belongs to one, which `kick` takes out, `bring` takes in
      again, and `forget` removes; `premises` and `believed` name them.
    - what follows: `x.ask()`, `x.why()` and `x.core()` of a cell, `table` and `show` of several,
      `how` as a tree, `settle` for whether all fits. A question raises Conflict where what is
      believed can't all hold.
    - what conflicts: `conflicts` are the minimal sets that can't all hold, `repairs` the minimal
      sets to give up so that the rest can, `outliers` those of readings.
    - what is best: `solve`, `least`, `greatest`, `trade_off`, `plans`, `slack`, `critical`;
      `try_first` says which values come first. What is proved of these, docs/CLAIMS.md tells.
    - what if: `what_if`, `scenarios`, `sweep`, `sensitivity`, `snapshot`, `diff`, `compare`.
    - quantities closer: `quantities`, `sought`, `device`, `devices`, `read_csv`, `read_table`,
      `read_laws`, `results`, `predict`, `adjust`, `report`.
    - why an answer is so wide: `x.why()` names the premises that it rests on, `sensitivity` what
      each is worth, `improvements` which reading to improve, `room` what a law costs in width;
      `shave` makes it narrower.
    - what shows an answer: conflicts, repairs, optima and plans have a `certificate`, which
      `propdesk check` asks a fresh program again.
    - to look at: `picture`, `film`, `serve`.
    - files and lines: `save`, `load`, `close`; `lines` are those that state a constraint; `proved`
      and `lacks` tell of the program.
    - within: `session`, `network`, `model`, `answer`, `constraint_of`; and `plan`, an older name of
      `project`.

    Several names may be given as a list, or in one text with spaces between.

    Each call is carried out at once and whole. Where it is refused, by ValueError or TypeError, or
    ends by another exception, as at Ctrl-C, nothing of it is stated: answers are as before, but of
    several reasons that are all right others may be named where the program had to begin anew.
    """

    @property
    def model(self) -> BenchModel:
        self._sharpen(self._network.cells.values(), Clock(_SOON, None))
        return BenchModel(self._network, schedule_in, made_by_hand)

    def constraint_of(self, constraint: Truth | bool) -> Node:
        if isinstance(constraint, Law):
            raise TypeError(f"`{constraint!r}` is a law of quantities: state it by `w.law(..)`")
        return super().constraint_of(constraint)

    def answer(
        self, command: str, cell: Declared, seconds: float | None, over: str | None
    ) -> Answer:
        clock = Clock(seconds, None)
        if over is None:
            self._sharpen([cell], clock)
        return super().answer(command, cell, clock.seconds_left(), over)

    def table(self, *cells: Cell, seconds: float | None = None) -> Table:
        clock = Clock(seconds, None)
        self._sharpen(map(self._own, cells) if cells else self._network.cells.values(), clock)
        return super().table(*cells, seconds=clock.seconds_left())

    # (of a quantity there is another table)
    def sensitivity(  # type: ignore[override]
        self,
        cell: CellLike,
        of: str | None = None,
        *,
        seconds: float | None = None,
        progress: Progress | None = None,
    ) -> Sensitivity | Improvements:
        """What each believed premise is worth: the answer for a cell where that is left out, and
        where each range that it tells is half as wide. By `of="least"` or `of="greatest"` it is
        the least or greatest value in any plan that is asked for. Of a quantity it is told which
        reading to improve.

        >>> w = Workbench()
        >>> x = w.number("x", 0, 100)
        >>> w.tell("Ana", x, 10, 30)
        >>> w.tell("Ben", x, 20, 90)
        >>> [(worth.premise, str(worth.left_out)) for worth in w.sensitivity(x)]
        [('Ana', '20..90'), ('Ben', '10..30')]
        """
        if isinstance(cell, Quantity):
            return self.improvements(cell, seconds=seconds, progress=progress)
        return super().sensitivity(cell, of, seconds=seconds, progress=progress)

    def adjust(
        self, *, k: float = 2, shape: str = "rectangular", seconds: float | None = None
    ) -> "Adjustment":
        """Estimates of quantities by weighted least squares over the same laws and readings, with
        standard uncertainties u and U = k u, beside the bounds; `tests` of each reading and of all.
        What is a bound is taken as `rectangular`, `triangular` or `normal` (three u). This is
        tested and not proved. Laws with `<=` don't count.

        Needs SciPy, else raises ImportError; raises ValueError where no estimate is found.

        >>> w = Workbench()
        >>> height = w.measured("height", "m", 0, 100, step="0.1")
        >>> w.read("tape", height, "12.0 m +- 0.5 m")
        >>> w.read("laser", height, "12.2 m +- 0.5 m")
        >>> w.adjust()  # doctest: +SKIP
        """
        from propbench.laboratory.adjustment import adjustment_of

        return adjustment_of(self, k, shape, seconds)

    def _suspects_first(self, names: Sequence[str]) -> list[str]:
        from propbench.laboratory.adjustment import suspects_first

        return suspects_first(self, names)

    def report(
        self,
        title: str = "Report",
        *,
        seconds: float | None = None,
        progress: Progress | None = None,
    ) -> "Report":
        """What was read of quantities, what follows, and what shows it: `.save("report.html")`
        writes a page that prints, and `.text` is the same as text. Where readings conflict, the
        results are those without the ones that `outliers` gives up first.

        Raises OutOfTime where values can't be asked for in time.

        >>> w = Workbench()
        >>> height = w.measured("height", "m", 0, 100, step="0.1")
        >>> w.read("tape", height, "12.0 m +- 0.5 m")
        >>> "height" in w.report("The house").text
        True
        """
        from propbench.laboratory.report import report_of

        return report_of(self, title, Clock(seconds, progress))

    def lines(self, constraint: Truth | Law) -> list[str]:
        if not isinstance(constraint, Law):
            return super().lines(constraint)
        stated = (it.constraint for it in self._laws() if it.law == constraint)
        return self._lines(constraint, stated)

    # --- projects ---

    def project(
        self,
        *,
        days: int,
        people: str | Sequence[str] = (),
        start: date | str | None = None,
        off: str | date | Iterable[str | date] = (),
        skills: Mapping[str, str | Sequence[str]] | None = None,
    ) -> Project:
        """A project over so many days, with people who do one thing at a time: its tasks, their
        order and what is wished for are stated by its own methods. `skills` are what some of them
        can do, as `{"ana": "welding", "ben": "welding wiring"}`.

        Day 0 is the date `start`, where one is given, and weekdays (`off="sat sun"`) and dates that
        are off are no days of it. A date may be a text, as `2026-12-04`. Raises ValueError and
        TypeError for what is none of these.

        >>> w = Workbench()
        >>> p = w.project(days=30, people="ana ben")
        >>> venue = p.task("venue", 3, who="ana")
        >>> review = p.task("review", 5, who="ben", after=[venue])
        >>> meeting = p.task("meeting", 1, who="ana ben", after=[review])
        >>> w.least(p.end).value
        9
        """
        calendar = None if start is None else Calendar.of(start, off)
        return Project(self, days, people, calendar, skills)

    def plan(
        self,
        *,
        days: int,
        people: str | Sequence[str] = (),
        start: date | str | None = None,
        off: str | date | Iterable[str | date] = (),
        skills: Mapping[str, str | Sequence[str]] | None = None,
    ) -> Project:
        """The same as `project`, by its older name, which stays until 2.0 and warns. (`plans` are
        others.)

        >>> w = Workbench()
        >>> p = w.plan(days=30)
        >>> p.task("venue", 3).days.ask().value
        3
        """
        said = "`w.plan` is called `w.project`: the older name goes with 2.0"
        warnings.warn(said, DeprecationWarning, stacklevel=2)
        return self.project(days=days, people=people, start=start, off=off, skills=skills)

    @property
    def projects(self) -> tuple[Project, ...]:
        """The projects of which something is stated, as also a file has them.

        >>> w = Workbench()
        >>> venue = w.project(days=30).task("venue", 3)
        >>> w.save("plan.prop")
        >>> [p] = Workbench.load("plan.prop").projects
        >>> list(p.tasks), p.workbench.least(p.end).value
        (['venue'], 3)
        """
        from propbench.planning.keeping import project_of

        found = (project_of(event) for event in self._network.events)
        return tuple(dict.fromkeys(project for project in found if project is not None))

    # --- within ---

    def _noted(self) -> Noted:
        from propbench.planning.keeping import Notes

        return Notes().of

    def _take_in(self, found: Saved) -> None:
        from propbench.model.saving import WRONG, NotAWorkbench
        from propbench.planning.keeping import Restored

        restored, wrong = Restored(self), "the file was not saved by a workbench"
        for event, note in zip(found.events, found.notes):
            try:
                meant = restored.event(event, note)
            except WRONG as error:
                raise NotAWorkbench(wrong) from error
            self._network.do(meant)
        try:
            restored.finish()
        except WRONG as error:
            raise NotAWorkbench(wrong) from error

    def _tell(self, premise: str | None, cell: Cell, value: GivenValue, high: object) -> None:
        if not isinstance(cell, Quantity):
            return super()._tell(premise, cell, value, high)
        own = self._own(cell)
        reading = reading_of(given_of(value, high), cell.unit)
        self._network.do(stating.read(own, reading, premise))

    def _notes(self, answers: Sequence[Answer]) -> Iterator[str]:
        if coverage := coverage_of(answers):
            yield coverage
        yield from super()._notes(answers)

    def _cell_of(self, declared: Declared) -> Cell:
        return super()._cell_of(declared) if declared.measure is None else Quantity(declared, self)

    def _quantity(self, made: Declared) -> Quantity:
        return self._added(Quantity(made, self))
