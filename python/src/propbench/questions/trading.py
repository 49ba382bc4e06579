"""What one goal costs the other: all pairs of values of two cells of which no other is as good in
both, each with a plan.

The least of the first goal is found, and the least of the second beside it; then the same among the
plans that are better in the second, until there are none. So each step that is proved leaves
nothing in between.
"""

import os
from collections.abc import Iterable, Iterator, Sequence
from dataclasses import dataclass, field

from propbench.clock import Clock, Progress
from propbench.questions.asking import CellLike, tried_by, whole_named
from propbench.questions.bench import Bench
from propbench.questions.bounding import LEAST, Optimum
from propbench.questions.certificate import Certificate
from propbench.questions.goals import Optima, Pursuit, ask, explained, told_at_most
from propbench.questions.shown import NOT_REFUTED, Shown
from propbench.showing import printable


class TradeOff(Shown, list[Optima]):
    """Plans of which none is as good in both of two cells as another and better in one, by the
    first cell; these are all there are where it is `complete`, by what the premises `because` say.
    `pairs` are their values. Where there was no time, the last may not be `proved`.

    >>> w = Workbench()
    >>> x, y = w.number("x", 1, 9), w.number("y", 1, 9)
    >>> w.require(x * y >= 10)
    >>> print(w.trade_off(x, y))
    4 ways to trade x for y, no others:
      x  y
      2  5
      3  4
      4  3
      5  2
    """

    _certificate = None

    def __init__(
        self,
        cells: tuple[str, str],
        found: Iterable[Optima],
        complete: bool,
        because: Iterable[str] = (),
        steps: Iterable[Optimum] = (),
    ) -> None:
        """Of these plans, as far as they were found by these steps."""
        super().__init__(found)
        self.cells, self.complete, self.because = cells, complete, tuple(because)
        self._steps = tuple(steps)

    @property
    def certificates(self) -> tuple[Certificate, ...]:
        """A certificate of each step, which together show that there are no others: the least of
        the first cell, the least of the second beside it, and so on among plans that are better in
        the second, until nothing fits. What was found before is told in each by a premise `the best
        ..`.

        >>> w = Workbench()
        >>> x, y = w.number("x", 0, 9), w.number("y", 0, 9)
        >>> w.require(x + 4 * y >= 8)
        >>> [each.check() for each in w.trade_off(x, y).certificates]
        [True, True, True, True, True, True]
        """
        return tuple(step.certificate for step in self._steps)

    @property
    def pairs(self) -> list[tuple[int, int]]:
        """The values of the two cells, of each plan.

        >>> w = Workbench()
        >>> x, y = w.number("x", 0, 9), w.number("y", 0, 9)
        >>> w.require(x + 4 * y >= 8)
        >>> w.trade_off(x, y).pairs
        [(0, 2), (4, 1), (8, 0)]
        """
        return [pair_of(self.cells, each) for each in self]

    def headline(self) -> str:
        first, second = self.cells
        if not self:
            open_ = f"no plan was found; that there is one is {NOT_REFUTED}"
            return f"{first} and {second}: {'nothing fits' if self.complete else open_}."
        if len(self) == 1 and self.complete:
            return f"One plan is best in both {first} and {second}:"
        ways = "1 way" if len(self) == 1 else f"{len(self)} ways"
        others = "no others" if self.complete else f"others are {NOT_REFUTED}"
        return f"{ways} to trade {first} for {second}, {others}:"

    def heads(self) -> Sequence[str]:
        done = ["done"] if any(self._dates()) else []
        return (*self.cells, *done, *self._choices(), *(["proved"] if self._is_open() else []))

    def rows(self) -> Sequence[Sequence[object]]:
        return [[*pair, *self._told(each)] for pair, each in zip(self.pairs, self)]

    def _dates(self) -> list[str | None]:
        """Of each plan the date on which all is done, where it has dates."""
        return [each.schedule.date_said() if each.schedule else None for each in self]

    def _told(self, each: Optima) -> Iterator[object]:
        if any(self._dates()):
            yield each.schedule.date_said() if each.schedule else None
        for name in self._choices():
            yield each.choices.get(name)
        if self._is_open():
            yield each.proved

    def _is_open(self) -> bool:
        return not all(each.proved for each in self)

    def _choices(self) -> list[str]:
        """The choices in which these plans differ."""
        names = dict.fromkeys(name for each in self for name in each.choices)
        return [name for name in names if len({str(it.choices.get(name)) for it in self}) > 1]

    def to_csv(self, path: str | os.PathLike[str] | None = None) -> str:
        """The table for a spreadsheet, written to a file where one is named; and its text.

        >>> w = Workbench()
        >>> x, y = w.number("x", 0, 9), w.number("y", 0, 9)
        >>> w.require(x + 4 * y >= 8)
        >>> w.trade_off(x, y).to_csv().split()
        ['x,y', '0,2', '4,1', '8,0']
        """
        from propbench.outputs import write_as
        from propbench.questions.staircase import csv_of

        return write_as(csv_of(self.heads(), self.rows()), path, (".csv",))

    def to_svg(self, path: str | os.PathLike[str] | None = None) -> str:
        """A picture: a point for each plan, and the steps between, below which nothing fits. It is
        written to a file where one is named.

        >>> w = Workbench()
        >>> x, y = w.number("x", 0, 9), w.number("y", 0, 9)
        >>> w.require(x + 4 * y >= 8)
        >>> w.trade_off(x, y).to_svg().count("<circle")
        3
        """
        from propbench.outputs import write_as
        from propbench.questions.staircase import Staircase

        drawn = Staircase(self.cells, self.pairs, self._said(), self._edge()).svg()
        return write_as(drawn, path, (".svg",))

    def _edge(self) -> int | None:
        """Up to which value of the first cell all is known, None where that is all there is."""
        if self.complete or not self:
            return None
        before, last = self.pairs[-2:-1], self[-1].steps[0]
        if last.proved:
            return self.pairs[-1][0]
        known = [pair[0] for pair in before] + ([] if last.bound is None else [last.bound])
        return max(known, default=self.pairs[-1][0] - 1)

    def _said(self) -> list[str]:
        """Of each plan which alternatives it takes, in a text."""
        names = self._choices()
        return [", ".join(printable(str(it.choices.get(name))) for name in names) for it in self]

    def _repr_html_(self) -> str:
        return f"{super()._repr_html_()}{self.to_svg() if self else ''}"


def pair_of(cells: Sequence[str], found: Optima) -> tuple[int, int]:
    """The values of two cells in the plan that was found."""
    plan = found.plan or {}
    first, second = (plan[cell] for cell in cells)
    assert isinstance(first, int) and isinstance(second, int)
    return first, second


@dataclass
class _Trading:
    """The search, as far as it has come: `steps` are all that was asked."""

    bench: Bench
    cells: tuple[str, str]
    clock: Clock
    found: list[Optima] = field(default_factory=list)
    steps: list[Optimum] = field(default_factory=list)
    told: list[str] = field(default_factory=list)
    complete: bool = False

    def run(self) -> None:
        """Goes from the least of the first cell to that of the second."""
        with self.bench._set_aside():
            while not self.clock.is_over() and self._step():
                self.clock.tell(f"{len(self.found)} pair{'s' * (len(self.found) > 1)} so far")

    def _step(self) -> bool:
        """Finds one more; whether there may be others."""
        own: list[Optimum] = []
        try:
            if not self._is_there(own):
                return False
            kept = self._tell(self.cells[0], own[0].value)
            ask(self.bench, self.cells[1], Pursuit(LEAST, self.clock), own)
            self.bench.kick(kept)
        finally:
            self._take(own)
        least = own[1].value
        if least is None or not own[1].proved:
            return False
        room = self.bench.model.candidates(self.cells[1])
        if isinstance(room, range) and least <= room[0]:
            self.complete = True
            return False
        self._tell(self.cells[1], least - 1)
        return True

    def _is_there(self, own: list[Optimum]) -> bool:
        """Whether the least of the first cell is found, beside what was told of the second."""
        least = ask(self.bench, self.cells[0], Pursuit(LEAST, self.clock), own)
        self.complete = least.proved and least.value is None
        return least.proved and least.value is not None

    def _take(self, own: Sequence[Optimum]) -> None:
        """Takes in what was found of one pair."""
        self.steps += own
        if any(step.plan is not None for step in own):
            steps = explained(self.bench.model, own)
            self.found.append(Optima(self.cells, LEAST, steps, self._because(own)))

    def _tell(self, cell: str, most: int | None) -> str:
        assert most is not None
        self.told.append(told_at_most(self.bench, cell, most))
        return self.told[-1]

    def _because(self, steps: Iterable[Optimum]) -> tuple[str, ...]:
        by = dict.fromkeys(name for step in steps for name in step.because)
        return tuple(
            name for name in self.bench.model.premises() if name in by and name not in self.told
        )

    def result(self) -> TradeOff:
        """What is known by now."""
        because = self._because(self.steps) if self.complete else ()
        return TradeOff(self.cells, self.found, self.complete, because, self.steps)


def find_trade_off(
    bench: Bench,
    cells: tuple[CellLike, CellLike],
    seconds: float | None,
    progress: Progress | None,
) -> TradeOff:
    """All plans of which none is as good in both cells as another. Raises as `find_optimum`, and
    ValueError where both are one cell."""
    first, second = (whole_named(bench.model, cell) for cell in cells)
    if first == second:
        raise ValueError(f"a trade-off is between two cells, and {first} is one")
    clock = Clock(seconds, progress)
    trading = _Trading(bench, (first, second), clock)
    return tried_by(clock, trading.run, trading.result)
