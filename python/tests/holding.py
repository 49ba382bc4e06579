"""A workbench made afresh of what stands, and answers held to its answers and to all points."""

from collections.abc import Iterable, Mapping, Sequence
from dataclasses import dataclass
from fractions import Fraction
from typing import Any

import pytest

from modelling import DAYS, Recipe, built
from propbench import Answer, Conflict, Elements, Nothing, Span, Workbench
from propbench.model.measures import Interval
from propbench.questions import NothingFits
from standing import Chosen, Made, Said, Standing, Values
from trying import Tried

# So many plans are asked for at the most.
MOST_PLANS = 60


def law_of(recipe: Recipe, cells: Mapping[str, Any]) -> Any:
    """A law as it is given to a workbench."""
    _, sort, *parts = recipe
    left, *others = (built(part, cells) for part in parts)
    if sort == "is no more than":
        return left <= others[0]
    if sort == "is the root of":
        return left == others[0].sqrt()
    return left == (others[0] if sort == "is" else others[0] / others[1])


def given(values: Values, of: Made) -> tuple[Any, ...]:
    """Values as `tell` takes them."""
    if of.is_measured:
        return (tuple(values),)
    if isinstance(of.values, range):
        return tuple(values)
    return (values[0] if len(values) == 1 else list(values),)


def begun(program: str) -> Workbench:
    """A workbench with which walks begin."""
    w = Workbench(program)
    w.domain("day", DAYS)
    return w


def fresh(program: str, standing: Standing) -> Workbench:
    """A workbench to which nothing was ever stated but what stands."""
    w = begun(program)
    cells = standing.cells
    for each in standing.entries:
        if isinstance(each, Made):
            make(w, each)
        elif isinstance(each, Said):
            say(w, each, cells)
        elif each.cell is not None:
            several = [given(values, cells[each.cell]) for values, _ in each.sides]
            w.choose(each.name, w.cell(each.cell), [alternative(it) for it in several])
        else:
            there = {it.name: it for it in w.cells}
            w.choose(each.name, {it: [built(r, there) for r in rs] for it, rs in each.sides})
    for premise in standing.kicked:
        w.kick(premise)
    return w


def alternative(values: tuple[Any, ...]) -> Any:
    """An alternative as `choose` takes it, by what `tell` takes."""
    return values if len(values) == 2 else values[0]


def _as_answered(values: Any) -> object:
    """An alternative, as an answer has it."""
    several = tuple(values) if isinstance(values, tuple) else (values,)
    if isinstance(values, list):
        several = tuple(day for day in DAYS if day in values)
    return several[0] if len(set(several)) == 1 else several


def make(w: Workbench, made: Made) -> None:
    """Makes a cell."""
    if made.ends is not None:
        w.measured(made.name, low=made.ends[0], high=made.ends[1], step=1)
    elif isinstance(made.values, range):
        w.number(made.name, made.values.start, made.values.stop - 1)
    elif made.values == (False, True):
        w.truth(made.name)
    else:
        w.element(made.name, w.network.domains["day"])


def say(w: Workbench, said: Said, cells: Mapping[str, Made]) -> None:
    """States something."""
    there = {it.name: it for it in w.cells}
    if said.recipe[0] == "law":
        w.law(law_of(said.recipe, there), said.premise)
    elif said.recipe[0] == "told":
        (_, of), values = said.recipe[1:]
        if said.premise is None:
            w.fix(w.cell(of), *given(values, cells[of]))
        else:
            w.tell(said.premise, w.cell(of), *given(values, cells[of]))
    else:
        w.require(built(said.recipe, there), said.premise)


@dataclass
class Held:
    """A workbench, one that was made afresh of what stands, and what that is."""

    w: Workbench
    fresh: Workbench
    standing: Standing
    tried: Tried

    def ask(self, name: str) -> None:
        """What follows for a cell."""
        found, wanted = answer_of(self.w, name), answer_of(self.fresh, name)
        assert are_alike(found, wanted)
        if isinstance(found, Conflict):
            assert not self.tried.fits
            assert set(found.premises) <= set(self.standing.believed)
            assert not Tried(self.standing, found.premises).fits
            return
        stands = self._stands(found.choices)
        for at in self.tried.points(name, stands) if self.tried.fits else ():
            assert has(found, at[name]), (found, at)
        if not stands:
            for at in Tried(self.standing, found.because).points(name, {}):
                assert has(found, at[name]), (found, at)

    def _stands(self, choices: Mapping[str, object]) -> dict[str, int]:
        """The alternatives on which choices stand: those of the first list that fits, or of one
        before that nothing refutes."""
        stands = {
            each.name: self._alternatives(each).index(choices[each.name])
            for each in self.standing.choices
        }
        first = self.tried.first()
        if first is not None:
            assert list(stands.values()) <= first
        return stands

    def _alternatives(self, choice: Chosen) -> list[object]:
        """The alternatives of a choice, as an answer has them."""
        if choice.cell is None:
            return [side for side, _ in choice.sides]
        of = self.standing.cells[choice.cell]
        several = [alternative(given(values, of)) for values, _ in choice.sides]
        return [_as_answered(it) for it in several]

    def best(self, name: str, sort: str) -> None:
        """The least or greatest value of a cell in any plan."""
        found, wanted = (getattr(w, sort)(name) for w in (self.w, self.fresh))
        assert (found.value, found.proved) == (wanted.value, wanted.proved)
        values = self.tried.values([name])
        if values is not None:
            numbers = [value for (value,) in values]
            best = min if sort == "least" else max
            assert found.proved and found.value == (best(numbers) if numbers else None)

    def some(self) -> None:
        """Some plan, or premises that leave none."""
        try:
            found = self.w.solve()
        except NothingFits as none:
            assert not self.tried.fits and none.premises is not None
            assert set(none.premises) <= set(self.standing.believed)
            assert not self._fits(none.premises)
            with pytest.raises(NothingFits):
                self.fresh.solve()
            return
        names = [each.name for each in self.standing.cells.values() if not each.is_measured]
        values = self.tried.values(names)
        assert self.fresh.solve().keys() == found.keys() == {*names}
        assert values is None or tuple(found[name] for name in names) in values

    def room(self, name: str) -> None:
        """The room of a cell over all plans."""
        found, wanted = (w.slack(name) for w in (self.w, self.fresh))
        assert found.room == wanted.room and set(found.values) == set(wanted.values)
        assert (found.low, found.high, found.complete) == (wanted.low, wanted.high, wanted.complete)

    def over_all(self, name: str) -> None:
        """What a cell may be over all plans, and because of what a number can't be less."""
        values = self.tried.values([name])
        try:
            found = self.w.cell(name).ask(over="all plans")
        except Conflict:
            assert not values
            return
        if values is None:
            return
        there, cell = {value for (value,) in values}, self.standing.cells[name]
        assert there
        if not isinstance(cell.values, range):
            assert all(has(found, each) is (each in there) for each in cell.values)
            return
        assert (found.low, found.high) == (min(there), max(there))
        critical = self.w.critical(name)
        assert critical.value == found.low and set(critical) <= set(self.standing.believed)
        lowest = Tried(self.standing, critical).values([name])
        assert lowest is None or min(lowest) == (found.low,)

    def plans(self, names: Sequence[str]) -> None:
        """All plans over some cells."""
        found, wanted = (w.plans(names, most=MOST_PLANS) for w in (self.w, self.fresh))
        assert found.complete == wanted.complete
        if found.complete:
            assert list(found) == list(wanted)
        values = self.tried.values(names)
        if values is not None:
            assert found.complete is (len(values) <= MOST_PLANS)
            there = {tuple(plan[name] for name in names) for plan in found}
            assert len(there) == len(found) == min(len(values), MOST_PLANS) and there <= values

    def conflicts(self) -> None:
        """The minimal sets of premises that can't all hold, and those to give up."""
        found, wanted = self.w.conflicts(), self.fresh.conflicts()
        assert set(found) == set(wanted) and found.complete == wanted.complete
        for each in found:
            assert not self._fits(each)
            assert all(self._fits(each - {premise}) is not False for premise in each)
        if self.tried.fits is not None and found.complete:
            assert bool(found) is not self.tried.fits

    def repairs(self, keep: Sequence[str]) -> None:
        """The minimal sets of premises to give up, with some that are kept."""
        found, wanted = (w.repairs(keep=keep) for w in (self.w, self.fresh))
        assert set(found) == set(wanted) and found.complete == wanted.complete
        for each in found:
            rest = set(self.standing.believed) - each
            assert self._fits(rest) is not False and not each & {*keep}
            assert not any(self._fits(rest | {premise}) for premise in each)

    def _fits(self, believed: Iterable[str]) -> bool | None:
        return Tried(self.standing, believed).fits

    def row(self, *change: Any) -> None:
        """A what-if in a table of them."""
        supposed = self.standing.after(("what if", *change))
        kick, bring, told = change[0], change[1], told_in(self.standing, change[2])
        rows: dict[str, Any] = {"row": dict(kick=kick, bring=bring, tell=told)}
        columns = list(self.standing.cells)
        if supposed is None:
            with pytest.raises((ValueError, TypeError)):
                self.w.scenarios(rows, columns)
            return
        found, wanted = (w.scenarios(rows, columns)["row"] for w in (self.w, self.fresh))
        assert (found.conflict is None) is (wanted.conflict is None)
        assert found.keys() == wanted.keys()
        assert all(are_alike(found[it], wanted[it]) for it in found)
        tried = Tried(supposed, supposed.believed)
        assert found.conflict is None or not tried.fits
        if tried.fits and not self.standing.choices:
            for name, answer in found.items():
                assert all(has(answer, at[name]) for at in tried.points(name, {}))

    def shave(self, name: str) -> None:
        """The narrowest for a quantity, and which readings to give up."""
        try:
            found = self.w.shave(self.w.cell(name))  # type: ignore[arg-type]
        except Conflict:
            assert not self.tried.fits
            return
        wanted = self.fresh.shave(self.fresh.cell(name))  # type: ignore[arg-type]
        assert are_alike(found, wanted)
        if self.tried.fits:
            assert all(has(found, at[name]) for at in self.tried.points(name, {}))
        assert list(self.w.outliers()) == list(self.fresh.outliers())

    def all(self) -> None:
        """What follows for all cells, and that nothing differs."""
        assert self.w.settle() is self.fresh.settle()
        for name in self.standing.cells:
            self.ask(name)
        assert not self.fresh.compare(self.w), str(self.fresh.compare(self.w))


def told_in(standing: Standing, tell: Sequence[tuple[str, str, Values]]) -> list[tuple[Any, ...]]:
    """What is told in a what-if."""
    cells = standing.cells
    return [
        (name, of, *(given(values, cells[of]) if of in cells else values))
        for name, of, values in tell
    ]


def answer_of(w: Workbench, name: str) -> Answer | Conflict:
    """What follows for a cell, or the conflict."""
    try:
        return w.cell(name).ask()
    except Conflict as conflict:
        return conflict


def said_of(found: Answer | Conflict) -> object:
    """What an answer says; the premises behind it may be others."""
    if isinstance(found, Conflict):
        return "conflict"
    return found.value, found.low, found.high, found.settled, dict(found.choices)


def are_alike(found: Answer | Conflict, other: Answer | Conflict) -> bool:
    """Whether two answers say the same; the premises behind them may be others. Of a quantity the
    readings behind an answer cut off what its cell leaves beyond them, so there the ends may be
    others too (`has` holds both to the points)."""
    if isinstance(found, Conflict) or isinstance(other, Conflict):
        return said_of(found) == said_of(other)
    is_measured = isinstance(found.value, Interval) and isinstance(other.value, Interval)
    if is_measured and set(found.because) != set(other.because):
        return (found.settled, found.choices) == (other.settled, other.choices)
    return said_of(found) == said_of(other)


def has(found: Answer, point: Any) -> bool:
    """Whether an answer leaves a point."""
    if found.low is not None or found.high is not None:
        low = found.low is None or Fraction(found.low) <= point
        return low and (found.high is None or point <= Fraction(found.high))
    if isinstance(found.value, Elements):
        return {True: "yes", False: "no"}.get(point, point) in found.value.names
    return isinstance(found.value, (Nothing, Span)) or found.value == point
