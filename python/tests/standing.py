"""What stands of the calls of a walk, as plain data: nothing of the package's own state is in it.

A call is a tuple: its name, and what it is given. `Standing.after` tells what stands behind a call,
or that it is to be refused. `fresh` states what stands to a workbench of its own, by no other calls
than those that make cells and state something of them: a project is what its tasks say of cells.
"""

from collections.abc import Callable, Iterable, Sequence
from dataclasses import dataclass, field, replace
from fractions import Fraction
from functools import reduce
from typing import Any

from modelling import DAYS, Recipe, cell, names_in

Call = tuple[Any, ...]
# What a cell may be: numbers from one to another, or the others one by one.
Values = range | tuple[Any, ...]
MOST_COST = 10**12
PEOPLE = ("ana", "ben")
# The reals at which laws are tried.
REALS = tuple(map(Fraction, ("1/2", "1", "3/2", "2", "3", "4", "6", "9")))


class Wrong(Exception):
    """A call that is to be refused."""


@dataclass(frozen=True)
class Made:
    """A cell, and what it may be; of a quantity, which lies between two ends, some reals."""

    name: str
    values: Values
    ends: tuple[Fraction, Fraction] | None = None

    @property
    def is_measured(self) -> bool:
        """Whether it is a quantity."""
        return self.ends is not None


@dataclass(frozen=True)
class Said:
    """What holds always or under a premise. What is implied anyway may stand for its own sake."""

    premise: str | None
    recipe: Recipe
    is_implied: bool = False


@dataclass(frozen=True)
class Chosen:
    """A choice: what each alternative is called, and what holds there. A cell of which values are
    the alternatives has a name."""

    name: str
    sides: tuple[tuple[Any, tuple[Recipe, ...]], ...]
    cell: str | None = None


@dataclass
class Tasks:
    """A project: who does which task, which of them cost something, when people are away under
    what premise, what its facts are, and which of its two cells are there."""

    days: int
    tasks: dict[str, tuple[str, ...]] = field(default_factory=dict)
    costs: tuple[str, ...] = ()
    away: tuple[tuple[str, int, int, str], ...] = ()
    facts: tuple[str, ...] = ()
    asked: tuple[str, ...] = ()

    def copy(self) -> "Tasks":
        """The same, which changes by itself."""
        return replace(self, tasks=dict(self.tasks))


@dataclass
class Standing:
    """What stands: cells, statements and choices in the order of their calls, which premises are
    kicked out, and the project. Within a what-if `outer` is what stands behind it."""

    entries: list[Made | Said | Chosen] = field(default_factory=list)
    kicked: set[str] = field(default_factory=set)
    project: Tasks | None = None
    outer: "Standing | None" = None
    # The cells and tasks that were made within what-ifs, and are not there any more.
    gone: frozenset[str] = frozenset()
    gone_tasks: frozenset[str] = frozenset()

    def after(self, call: Call) -> "Standing | None":
        """What stands behind a call, which may be a question; None where it is to be refused."""
        if call[0] not in _DOES:
            return self
        made = self._copy()
        try:
            left: Standing | None = _DOES[call[0]](made, *call[1:])
        except Wrong:
            return None
        return left or made

    @property
    def cells(self) -> dict[str, Made]:
        """The cells by name."""
        return {each.name: each for each in self.entries if isinstance(each, Made)}

    @property
    def premises(self) -> list[str]:
        """The premises, in the order of their first mention."""
        said = [each.premise for each in self.entries if isinstance(each, Said) and each.premise]
        return list(dict.fromkeys(said))

    @property
    def believed(self) -> list[str]:
        """The premises that are believed."""
        return [premise for premise in self.premises if premise not in self.kicked]

    @property
    def choices(self) -> list[Chosen]:
        """The choices."""
        return [each for each in self.entries if isinstance(each, Chosen)]

    def said(self, believed: Iterable[str]) -> list[Recipe]:
        """All that is said where these premises are believed; what is implied is left out."""
        holding = {None, *believed}
        return [
            each.recipe
            for each in self.entries
            if isinstance(each, Said) and each.premise in holding and not each.is_implied
        ]

    def _copy(self) -> "Standing":
        project = self.project and self.project.copy()
        return replace(self, entries=list(self.entries), kicked=set(self.kicked), project=project)

    # --- what is called ---

    def make(self, name: str, values: Values) -> None:
        """Makes a cell."""
        self._add(Made(name, values))

    def measure(self, name: str, low: Fraction, high: Fraction) -> None:
        """Makes the cell of a quantity."""
        self._add(Made(name, tuple(it for it in REALS if low <= it <= high), (low, high)))

    def _add(self, made: Made) -> None:
        if made.name in self.cells or not made.values:
            raise Wrong
        self.entries.append(made)

    def say(self, premise: str | None, recipe: Recipe, is_implied: bool = False) -> None:
        """States something, always or under a premise."""
        self._check(recipe)
        if premise in {it.name for it in self.choices}:
            raise Wrong
        self.entries.append(Said(premise, recipe, is_implied))

    def _check(self, recipe: Recipe) -> None:
        """Whether a recipe speaks of cells that are there, and tells one of values."""
        if not names_in(recipe) <= self.cells.keys():
            raise Wrong
        if recipe[0] == "told":
            values = recipe[2]
            if is_range(values) and values[0] > values[1]:
                raise Wrong

    def choose(self, name: str, sides: Sequence[tuple[Any, Any]], of: str | None = None) -> None:
        """Makes a choice."""
        taken = {*self.premises, *(each.name for each in self.choices)}
        if name in taken or len(sides) < 2:
            raise Wrong
        for _, recipes in sides:
            for recipe in recipes:
                self._check(recipe)
        self.entries.append(Chosen(name, tuple(sides), of))

    def pick(self, name: str, of: str, several: Sequence[Values]) -> None:
        """Makes a choice between values of a cell."""
        self.choose(name, [(each, (told(of, each),)) for each in several], of)

    def believe(self, premise: str, is_believed: bool) -> None:
        """Takes in what is believed."""
        if premise not in self.premises:
            raise Wrong
        (self.kicked.discard if is_believed else self.kicked.add)(premise)

    def forget(self, premise: str) -> None:
        """Takes away all that is said under a premise: of the project too."""
        self.believe(premise, True)
        self.entries = [
            each for each in self.entries if not isinstance(each, Said) or each.premise != premise
        ]
        if self.project:
            self.project.away = tuple(it for it in self.project.away if it[3] != premise)
            self.project.facts = tuple(it for it in self.project.facts if it != premise)

    def what_if(
        self,
        kick: Sequence[str],
        bring: Sequence[str],
        tell: Sequence[tuple[str, str, Values]],
    ) -> None:
        """Goes into a what-if."""
        if not {*kick, *bring} <= set(self.premises):
            raise Wrong
        self.outer = self._copy()
        for premises, is_believed in ((kick, False), (bring, True)):
            for premise in premises:
                self.believe(premise, is_believed)
        for premise, of, values in tell:
            self.say(premise, told(of, values))
            if premise not in kick:
                self.kicked.discard(premise)

    def behind(self) -> "Standing":
        """Leaves a what-if: nothing stands of what was called there."""
        if self.outer is None:
            raise Wrong
        outer = self.outer
        gone = self.gone | (self.cells.keys() - outer.cells.keys())
        tasks, left = (set(it.project.tasks) if it.project else set() for it in (self, outer))
        return replace(outer, gone=gone, gone_tasks=self.gone_tasks | (tasks - left))

    def load(self) -> None:
        """A workbench that is saved and loaded has no project; within a what-if it isn't kept."""
        if self.outer is None:
            self.project, self.gone, self.gone_tasks = None, frozenset(), frozenset()

    def use_gone(self, name: str) -> None:
        """What is gone is of no use."""
        raise Wrong

    # --- projects ---

    def plan(self, days: int) -> None:
        """Begins a project, which stands in the place of another."""
        if days < 1:
            raise Wrong
        self.project = Tasks(days)

    def task(
        self,
        name: str,
        ways: Sequence[tuple[int, int]],
        who: Sequence[str],
        after: Sequence[str],
        under: str | None,
    ) -> None:
        """A task that is done in one way, or in one of several, each its days and its cost."""
        p = self._project()
        if name in p.tasks or p.asked or not {*who} <= {*PEOPLE} or not {*after} <= {*p.tasks}:
            raise Wrong
        has_cost = any(cost for _, cost in ways)
        for what in ("start", "end", "days"):
            self.make(f"{name} {what}", range(p.days + 1))
        if has_cost:
            self.make(f"{name} cost", range(MOST_COST + 1))
            p.costs += (name,)
        start, end, days, cost = (cell(f"{name} {it}") for it in ("start", "end", "days", "cost"))
        self.say(None, ("equal", end, ("sum", start, days)))
        if len(ways) > 1:
            takes = [("equal", days, ("constant", each)) for each, _ in ways]
            costs = [("equal", cost, ("constant", each)) for _, each in ways]
            both = enumerate(zip(takes, costs))
            self.choose(name, [(f"way {n}", it[: 1 + has_cost]) for n, it in both])
        else:
            [(days_told, cost_told)] = ways
            self._fact(under or f"{name} takes {days_told}", told(days[1], (days_told,) * 2))
            if has_cost:
                self._fact(under or f"{name} costs {cost_told}", told(cost[1], (cost_told,) * 2))
        for other in after:
            self._fact(under or f"{name} after {other}", ("at most", cell(f"{other} end"), start))
        self._keep_apart(name, who)
        p.tasks[name] = tuple(who)

    def away(self, person: str, first: int, last: int, under: str | None) -> None:
        """A person does nothing for some days."""
        p = self._project()
        if person not in PEOPLE or first >= last:
            raise Wrong
        premise = under or f"{person} away {first} to {last}"
        p.away += ((person, first, last, premise),)
        doing = [name for name, people in p.tasks.items() if person in people]
        if not doing:
            self.say(premise, ("constant", True))
        for name in doing:
            self._keep_off(name, first, last, premise)
        if doing and "end" in p.asked:
            self._bound(person)

    def done_by(self, day: int, under: str | None, name: str | None) -> None:
        """A task, or all, is done by a day."""
        p = self._project()
        if name is None:
            self.end()
        elif name not in p.tasks:
            raise Wrong
        premise = under or f"{'all' if name is None else name} done by {day}"
        last = cell("end" if name is None else f"{name} end")
        self.say(premise, ("at most", last, ("constant", day)))

    def end(self) -> None:
        """Makes the cell of the day by which all is done."""
        p = self._project()
        if "end" in p.asked:
            return
        self.make("end", range(p.days + 1))
        p.asked += ("end",)
        if not p.tasks:
            return
        ends = [cell(f"{name} end") for name in p.tasks]
        self.say(None, ("equal", cell("end"), ("maximum", *ends)))
        for person in PEOPLE:
            self._bound(person)

    def _bound(self, person: str) -> None:
        """The work of somebody, and the days off in which nothing is done, lie before the end."""
        p = self._project()
        doing = [name for name, people in p.tasks.items() if person in people]
        if len(doing) > 1:
            work: Recipe = ("total", *(cell(f"{name} days") for name in doing))
            lost = self._days_off(person, doing)
            whole = ("total", work, *lost) if lost else work
            bound = ("at most", whole, cell("end"))
            self.say(f"{person} does one thing at a time", bound, True)

    def _days_off(self, person: str, doing: Sequence[str]) -> list[Recipe]:
        """How many days before the end somebody is away, from an absence's ends to the next."""
        p, found = self._project(), list[Recipe]()
        aways = list(dict.fromkeys(each for each in p.away if each[0] == person))
        ends = sorted({day for each in aways for day in each[1:3]})
        for begin, last in zip(ends, ends[1:]):
            kept: list[Recipe] = []
            for _, off, back, _ in (it for it in aways if it[1] <= begin and last <= it[2]):
                apart = [_apart_from(name, off, back) for name in doing]
                kept.append(reduce(lambda one, other: ("and", one, other), apart))
            first = max(begin, 0)
            if kept and first < min(last, p.days):
                is_off = reduce(lambda one, other: ("or", one, other), dict.fromkeys(kept))
                before = ("minimum", cell("end"), ("constant", last))
                since = ("maximum", before, ("constant", first))
                days = ("difference", since, ("constant", first))
                found.append(("if", is_off, days, ("constant", 0)))
        return found

    def total_cost(self) -> None:
        """Makes the cell of what all costs."""
        p = self._project()
        if "total cost" in p.asked:
            return
        self.make("total cost", range(MOST_COST + 1))
        p.asked += ("total cost",)
        costs = [cell(f"{name} cost") for name in p.costs]
        whole = ("total", *costs) if costs else ("constant", 0)
        self.say(None, ("equal", cell("total cost"), whole))

    def _project(self) -> Tasks:
        if self.project is None:
            raise Wrong
        return self.project

    def _fact(self, premise: str, recipe: Recipe) -> None:
        p = self._project()
        self.say(premise, recipe)
        p.facts = tuple(dict.fromkeys((*p.facts, premise)))

    def _keep_apart(self, name: str, who: Iterable[str]) -> None:
        """Its people do one thing at a time, and nothing while they are away."""
        p = self._project()
        start, end = cell(f"{name} start"), cell(f"{name} end")
        for other, people in p.tasks.items():
            for person in (each for each in who if each in people):
                first = ("at most", cell(f"{other} end"), start)
                apart = ("or", first, ("at most", end, cell(f"{other} start")))
                self.say(f"{person} does one thing at a time", apart)
        # (whoever is away twice under the same name is away once)
        for person, begin, last, premise in dict.fromkeys(p.away):
            if person in who:
                self._keep_off(name, begin, last, premise)

    def _keep_off(self, name: str, begin: int, last: int, premise: str) -> None:
        self.say(premise, _apart_from(name, begin, last))


def _apart_from(name: str, begin: int, last: int) -> Recipe:
    """A task is not done in some days."""
    before = ("at most", cell(f"{name} end"), ("constant", begin))
    return ("or", before, ("at least", cell(f"{name} start"), ("constant", last)))


def told(of: str, values: Values) -> Recipe:
    """That a cell has one of these values: of numbers and quantities, one from the first to the
    last."""
    return ("told", cell(of), values)


def is_range(values: Values) -> bool:
    """Whether these are the two ends of what numbers and quantities are told to be."""
    return not isinstance(values[0], (bool, str))


_DOES: dict[str, Callable[..., Any]] = {
    "number": lambda it, name, low, high: it.make(name, range(low, high + 1)),
    "truth": lambda it, name: it.make(name, (False, True)),
    "element": lambda it, name: it.make(name, DAYS),
    "measured": Standing.measure,
    "require": Standing.say,
    "law": lambda it, premise, *law: it.say(premise, ("law", *law)),
    "tell": lambda it, premise, of, values: it.say(premise, told(of, values)),
    "read": lambda it, premise, of, *ends: it.say(premise, told(of, ends)),
    "choose": Standing.choose,
    "pick": Standing.pick,
    "kick": lambda it, premise: it.believe(premise, False),
    "bring": lambda it, premise: it.believe(premise, True),
    "forget": Standing.forget,
    "what if": Standing.what_if,
    "behind": lambda it, error: it.behind(),
    "load": Standing.load,
    "gone": Standing.use_gone,
    "plan": Standing.plan,
    "task": Standing.task,
    "away": Standing.away,
    "done by": Standing.done_by,
    "end": Standing.end,
    "total cost": Standing.total_cost,
}
