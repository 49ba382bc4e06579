"""Questions that take many asks: which premises conflict, what to give up, what is best, what else.

A workbench has these as its methods. Each gives a result that prints well, is a table, says whether
it is complete, and has a certificate. What answers a question is imported once it is asked.
"""

from __future__ import annotations

from collections.abc import Iterable, Iterator, Mapping
from contextlib import contextmanager
from typing import TYPE_CHECKING, TypeVar, overload

from propbench.clock import Clock, Progress
from propbench.given import count_given
from propbench.lazily import all_of, names_of
from propbench.questions.bench import Bench
from propbench.questions.model import Model as Model

if TYPE_CHECKING:
    from concurrent.futures import Executor

    from propbench.questions.asking import CellLike, Cells
    from propbench.questions.asking import Interrupted as Interrupted
    from propbench.questions.asking import NoSuchName as NoSuchName
    from propbench.questions.bounding import Optimum as Optimum
    from propbench.questions.certificate import Certificate as Certificate
    from propbench.questions.changes import ToldValue
    from propbench.questions.checker import CertificateError as CertificateError
    from propbench.questions.comparing import Differences as Differences
    from propbench.questions.comparing import Snapshot as Snapshot
    from propbench.questions.conflicts import Conflicts as Conflicts
    from propbench.questions.conflicts import Repairs as Repairs
    from propbench.questions.critical import Critical as Critical
    from propbench.questions.critical import Slack as Slack
    from propbench.questions.goals import Optima as Optima
    from propbench.questions.model import Plan as Plan
    from propbench.questions.model import Point as Point
    from propbench.questions.outcomes import NothingFits as NothingFits
    from propbench.questions.plans import Plans as Plans
    from propbench.questions.scenarios import Scenario
    from propbench.questions.scenarios import Scenarios as Scenarios
    from propbench.questions.sensitivity import Sensitivity as Sensitivity
    from propbench.questions.solution import Solution as Solution
    from propbench.questions.trading import TradeOff as TradeOff
else:
    _HOMES = {
        "propbench.questions.asking": "Interrupted NoSuchName",
        "propbench.questions.bounding": "Optimum",
        "propbench.questions.certificate": "Certificate",
        "propbench.questions.checker": "CertificateError",
        "propbench.questions.comparing": "Differences Snapshot",
        "propbench.questions.conflicts": "Conflicts Repairs",
        "propbench.questions.critical": "Critical Slack",
        "propbench.questions.goals": "Optima",
        "propbench.questions.model": "Plan Point",
        "propbench.questions.outcomes": "NothingFits",
        "propbench.questions.plans": "Plans",
        "propbench.questions.scenarios": "Scenarios",
        "propbench.questions.sensitivity": "Sensitivity",
        "propbench.questions.solution": "Solution",
        "propbench.questions.trading": "TradeOff",
    }
    __all__ = ["Model", "Questions", *all_of(_HOMES)]
    __getattr__ = names_of(__name__, _HOMES)

    def __dir__():
        return sorted({*globals(), *__all__})


SomeBench = TypeVar("SomeBench", bound=Bench)


class Questions:
    """The questions of a workbench. Each tries things in a second session, so the workbench is as
    it was afterwards. That of questions for plans, conflicts and repairs is kept, where the program
    searches for them itself: what one has found out serves the next.

    `seconds` ends a question early, with what is known by then; Ctrl-C does so by `Interrupted`,
    which has that as `so_far`. `progress` is called with a line of text now and then; where it is
    None, a question that takes longer shows that line on the terminal.

    Several names may be given as a list, or in one text with spaces between, as `keep="Ana cheap"`.
    A name that has spaces itself is one, where there is one of that name.
    """

    @property
    def model(self) -> Model:
        """What the questions are asked of.

        >>> w = Workbench()
        >>> x = w.number("x", 0, 9)
        >>> w.model.candidates("x")
        range(0, 10)
        """
        raise NotImplementedError

    def conflicts(
        self,
        *,
        keep: str | Iterable[str] = (),
        most: int = 100,
        seconds: float | None = None,
        progress: Progress | None = None,
    ) -> Conflicts:
        """All minimal sets of believed premises that can't all hold, `most` of them at the most.

        Those that are to `keep` are taken as given, and stand in no conflict. The list is empty
        where everything fits. A conflict without any premise says that what always holds can't.

        >>> w = Workbench()
        >>> x = w.number("x", 0, 9)
        >>> for name, most in [("much", 8), ("little", 3), ("less", 2)]:
        ...     w.require(x >= most if name == "much" else x <= most, under=name)
        >>> sorted(conflict.names for conflict in w.conflicts())
        [('much', 'less'), ('much', 'little')]
        """
        from propbench.questions.conflicts import SetSearch, find_conflicts

        search = SetSearch(count_given(most, "most"), keep, seconds, progress)
        return find_conflicts(self.model, search)

    def repairs(
        self,
        weight: Mapping[str, float] | None = None,
        *,
        keep: str | Iterable[str] = (),
        most: int = 100,
        seconds: float | None = None,
        progress: Progress | None = None,
    ) -> Repairs:
        """All minimal sets of believed premises to give up so that the others fit, cheapest first,
        `most` of them at the most.

        `weight` says what it costs to give up a premise, 1 where it says nothing of it. Those that
        are to `keep` are not given up. Where there are more than `most`, over propwide these are
        any of them, unless there is a weight: then all are found first.

        >>> w = Workbench()
        >>> x = w.number("x", 0, 9)
        >>> for name, most in [("much", 8), ("little", 3), ("less", 2)]:
        ...     w.require(x >= most if name == "much" else x <= most, under=name)
        >>> [(repair.names, repair.cost) for repair in w.repairs(weight={"much": 5})]
        [(('little', 'less'), 2), (('much',), 5)]
        """
        from propbench.questions.conflicts import SetSearch, find_repairs

        search = SetSearch(count_given(most, "most"), keep, seconds, progress)
        return find_repairs(self.model, {} if weight is None else weight, search)

    def solve(self, *, seconds: float | None = None, progress: Progress | None = None) -> Solution:
        """A plan: a value of each cell with which all holds that is believed, and one alternative
        of each choice. Raises NothingFits with the `premises` that can't all hold, or None where no
        plan was found in time.

            plan = w.solve()
            print(plan["days"], plan.choices)

        >>> w = Workbench()
        >>> days, price = w.number("days", 1, 30), w.number("price", 0, 9000)
        >>> w.require(price == 400 * days)
        >>> w.require(days > 21)
        >>> w.solve()["price"]
        8800
        """
        from propbench.questions.ends import find_solution

        return find_solution(self.model, seconds, progress)

    @overload
    def least(
        self,
        cell: CellLike,
        *,
        executor: Executor | None = None,
        seconds: float | None = None,
        progress: Progress | None = None,
    ) -> Optimum:
        ...

    @overload
    def least(
        self,
        cell: Cells,
        *,
        executor: Executor | None = None,
        seconds: float | None = None,
        progress: Progress | None = None,
    ) -> Optima:
        ...

    def least(
        self: Bench,
        cell: CellLike | Cells,
        *,
        executor: Executor | None = None,
        seconds: float | None = None,
        progress: Progress | None = None,
    ) -> Optimum | Optima:
        """The least value of a cell in any plan. Raises ValueError where there is no such cell, and
        TypeError where it holds no numbers. Where nothing fits, `value` is None and `proved` is
        True; `w.repairs()` tells what to give up then.

        Where it is `proved`, propwide has answered so, and it is proved of propwide that the plan
        fits the lines, and that by `because` nothing less does: docs/FITTING.md, "What is proved".
        That lines say what you wrote is tested. Over propbench it has contradicted each case.

        Of several cells, `w.least([end, cost])`, it is the least of the first, then that of the
        second in the plans that have it, and so on.

        An `executor`, as of `w.sweep`, has propwide ask parts side by side that cover all there may
        be: by what is to be tried first, by which of two comes first, or by ranges of the cell.
        `because` is what the parts name together, and the certificate has the parts.

        >>> w = Workbench()
        >>> days, price = w.number("days", 1, 30), w.number("price", 0, 9000)
        >>> w.require(price >= 400 * days)
        >>> w.require(days >= 3, under="three days")
        >>> best = w.least(price)
        >>> best.value, best.proved, best.because
        (1200, True, ('three days',))
        >>> w.least([days, price]).values
        (3, 1200)
        """
        from propbench.questions.bounding import LEAST
        from propbench.questions.goals import Pursuit, least_of

        return least_of(self, cell, Pursuit(LEAST, Clock(seconds, progress), executor))

    @overload
    def greatest(
        self,
        cell: CellLike,
        *,
        executor: Executor | None = None,
        seconds: float | None = None,
        progress: Progress | None = None,
    ) -> Optimum:
        ...

    @overload
    def greatest(
        self,
        cell: Cells,
        *,
        executor: Executor | None = None,
        seconds: float | None = None,
        progress: Progress | None = None,
    ) -> Optima:
        ...

    def greatest(
        self: Bench,
        cell: CellLike | Cells,
        *,
        executor: Executor | None = None,
        seconds: float | None = None,
        progress: Progress | None = None,
    ) -> Optimum | Optima:
        """The greatest value of a cell in any plan, or of several, one after the other. All else is
        as in `least`.

        >>> w = Workbench()
        >>> days, price = w.number("days", 1, 30), w.number("price", 0, 9000)
        >>> w.require(price >= 400 * days)
        >>> w.greatest("days").value
        22
        """
        from propbench.questions.bounding import GREATEST
        from propbench.questions.goals import Pursuit, least_of

        return least_of(self, cell, Pursuit(GREATEST, Clock(seconds, progress), executor))

    def trade_off(
        self: Bench,
        first: CellLike,
        second: CellLike,
        *,
        seconds: float | None = None,
        progress: Progress | None = None,
    ) -> TradeOff:
        """What one goal costs the other: all plans of which none is as good in both cells as
        another, where less is better, from the least of the first to that of the second. It prints
        as a table, and is written by `to_csv`, and by `to_svg` as a picture. Raises as `least`.

        >>> w = Workbench()
        >>> days, price = w.number("days", 1, 9), w.number("price", 0, 900)
        >>> w.require(price * days >= 1200)
        >>> w.require(days <= 4)
        >>> w.trade_off(days, price).pairs
        [(2, 600), (3, 400), (4, 300)]
        """
        from propbench.questions.trading import find_trade_off

        return find_trade_off(self, (first, second), seconds, progress)

    def plans(
        self,
        show: str | Iterable[CellLike] | None = None,
        *,
        most: int = 100,
        seconds: float | None = None,
        progress: Progress | None = None,
    ) -> Plans:
        """All plans over the cells that are shown (all but those for symbols where none are named),
        each once, `most` of them at the most. Raises ValueError where there is no such cell.

        >>> w = Workbench()
        >>> x, y = w.number("x", 0, 9), w.number("y", 0, 9)
        >>> w.require(x * y == 6)
        >>> sorted(plan["x"] for plan in w.plans([x]))
        [1, 2, 3, 6]
        """
        from propbench.questions.plans import find_plans

        return find_plans(self.model, show, count_given(most, "most"), seconds, progress)

    def slack(
        self,
        cell: CellLike,
        *,
        seconds: float | None = None,
        progress: Progress | None = None,
    ) -> Slack:
        """How much room a cell has over all plans: its least and its greatest value, or all the
        values that it has in some plan.

        >>> w = Workbench()
        >>> x, y = w.number("x", 0, 9), w.number("y", 0, 9)
        >>> w.require(x * y == 6)
        >>> slack = w.slack(x)
        >>> slack.low, slack.high, slack.room
        (1, 6, 5)
        """
        from propbench.questions.critical import find_slack

        return find_slack(self.model, cell, seconds, progress)

    def critical(
        self,
        cell: CellLike,
        end: str = "least",
        *,
        seconds: float | None = None,
        progress: Progress | None = None,
    ) -> Critical:
        """The premises because of which a number can't be less than its least value in any plan, or
        by `end="greatest"` more than its greatest: a minimal set of such premises. Raises
        NothingFits where nothing fits, and ValueError where the end isn't known in time.

        >>> w = Workbench()
        >>> days, price = w.number("days", 1, 30), w.number("price", 0, 9000)
        >>> w.require(price >= 400 * days, under="a day's price")
        >>> w.require(days >= 3, under="three days")
        >>> w.require(days >= 2, under="two days")
        >>> w.critical(price).names
        ("a day's price", 'three days')
        """
        from propbench.questions.critical import find_critical

        return find_critical(self.model, cell, end, seconds, progress)

    def sensitivity(
        self: Bench,
        cell: CellLike,
        of: str | None = None,
        *,
        seconds: float | None = None,
        progress: Progress | None = None,
    ) -> Sensitivity:
        """What each believed premise is worth: the answer for a cell where that is left out, and
        where each range that it tells is half as wide. By `of="least"` or `of="greatest"` it is the
        least or greatest value in any plan that is asked for. Raises ValueError for another `of`.

        >>> w = Workbench()
        >>> x = w.number("x", 0, 100)
        >>> w.tell("Ana", x, 10, 30)
        >>> w.tell("Ben", x, 20, 90)
        >>> for worth in w.sensitivity(x):
        ...     print(worth.premise, worth.left_out)
        Ana 20..90
        Ben 10..30
        """
        from propbench.questions.bounding import GREATEST, LEAST
        from propbench.questions.sensitivity import of_answers, of_optimum

        if of is None:
            return of_answers(self, cell, seconds, progress)
        if of not in (LEAST, GREATEST):
            raise ValueError(f"sensitivity is of {LEAST!r} or {GREATEST!r}, and not {of!r}")
        return of_optimum(self.model, cell, of, seconds, progress)

    def scenarios(
        self: Bench,
        rows: Mapping[str, Scenario],
        columns: str | Iterable[CellLike],
        *,
        seconds: float | None = None,
        progress: Progress | None = None,
    ) -> Scenarios:
        """A table of what-ifs. A row is named, and is a dict of what to `kick`, `bring` and `tell`
        as in `what_if`; the columns are cells, and stand in it as answers.

        >>> w = Workbench()
        >>> x = w.number("x", 0, 9)
        >>> w.tell("Ana", x, 3, 5)
        >>> table = w.scenarios({"now": {}, "without Ana": dict(kick=["Ana"])}, [x])
        >>> print(table["now"]["x"].value, table["without Ana"]["x"].value)
        3..5 0..9
        """
        from propbench.questions.scenarios import find_scenarios

        return find_scenarios(self, rows, columns, seconds, progress)

    def sweep(
        self: Bench,
        scenarios: Mapping[str, Scenario] | Iterable[Scenario],
        show: str | Iterable[CellLike],
        executor: Executor | None = None,
        *,
        seconds: float | None = None,
        progress: Progress | None = None,
    ) -> Scenarios:
        """The same table for many scenarios, asked side by side by an executor of
        `concurrent.futures` (processes, or other machines); by threads, each with a program of its
        own, where none is given. Scenarios without names are numbered from 1.

        >>> w = Workbench()
        >>> x, y = w.number("x", 0, 9), w.number("y", 0, 90)
        >>> w.require(y == 10 * x)
        >>> table = w.sweep([dict(tell=[("guess", x, value)]) for value in (2, 5)], [y])
        >>> {name: row["y"].value for name, row in table.items()}
        {'1': 20, '2': 50}
        """
        from propbench.questions.scenarios import sweep

        return sweep(self, scenarios, show, executor, Clock(seconds, progress))

    @contextmanager
    def what_if(
        self: SomeBench,
        *,
        kick: str | Iterable[str] = (),
        bring: str | Iterable[str] = (),
        tell: Iterable[ToldValue] = (),
    ) -> Iterator[SomeBench]:
        """Has the workbench answer for a while as if premises were kicked out or brought in, and
        more were told: `with w.what_if(kick=["ana"], tell=[("guess", x, 3, 5)]): x.ask()`. What is
        told counts, also under a premise that is kicked out otherwise.

        Behind the `with` the workbench is as it was, its projects and quantities too, whatever was
        stated within: what was made there is gone.

        >>> w = Workbench()
        >>> x = w.number("x", 0, 9)
        >>> w.tell("Ana", x, 3, 5)
        >>> with w.what_if(kick=["Ana"], tell=[("Ben", x, 7)]):
        ...     print(x.ask().value)
        7
        >>> print(x.ask().value)
        3..5
        """
        from propbench.questions.changes import changed, resolved

        change = changed(kick, bring, tell)
        with self._set_aside():
            # (what is wrong with it is said here, and names that it gives are those of the copy)
            made = resolved(self.model, change)
            for premise in made.kicked:
                self.kick(premise)
            for premise in made.brought:
                self.bring(premise)
            for told, cell, *value in change.tell:
                self.tell(str(told), self.cell(cell) if isinstance(cell, str) else cell, *value)
                if told not in made.kicked:
                    self.bring(str(told))
            yield self

    def snapshot(
        self: Bench, *, seconds: float | None = None, progress: Progress | None = None
    ) -> Snapshot:
        """What is stated and answered now, to be compared later by `diff`. It can be pickled.

        >>> w = Workbench()
        >>> x = w.number("x", 0, 9)
        >>> before = w.snapshot()
        >>> w.require(x >= 4, under="much")
        >>> [each.what for each in w.diff(before)]
        ['premise much', 'x']
        """
        from propbench.questions.comparing import snapshot_of

        return snapshot_of(self, Clock(seconds, progress))

    def diff(
        self: Bench,
        snapshot: Snapshot,
        *,
        seconds: float | None = None,
        progress: Progress | None = None,
    ) -> Differences:
        """In what the statements and answers differ from those of a snapshot, and because of what
        premises. Raises TypeError for what is no snapshot.

        >>> w = Workbench()
        >>> x = w.number("x", 0, 9)
        >>> before = w.snapshot()
        >>> w.require(x >= 4, under="much")
        >>> print(w.diff(before)[-1].before, w.diff(before)[-1].now)
        0..9 4..9
        """
        from propbench.questions.comparing import Snapshot, difference_to

        if not isinstance(snapshot, Snapshot):
            raise TypeError(f"{snapshot!r} is no snapshot, as `w.snapshot()` gives one")
        return difference_to(snapshot, self, Clock(seconds, progress))

    def compare(
        self: Bench,
        other: Bench,
        *,
        seconds: float | None = None,
        progress: Progress | None = None,
    ) -> Differences:
        """In what the statements and answers of another workbench differ from those of this one.
        Raises TypeError for what is no workbench.

        >>> one, other = Workbench(), Workbench()
        >>> x, y = one.number("x", 0, 9), other.number("x", 0, 5)
        >>> [(each.what, str(each.before), str(each.now)) for each in one.compare(other)]
        [('x', '0..9', '0..5')]
        """
        from propbench.questions.comparing import difference_between

        if not isinstance(other, Questions):
            raise TypeError(f"{other!r} is no workbench that could be compared")
        return difference_between(self, other, Clock(seconds, progress))
