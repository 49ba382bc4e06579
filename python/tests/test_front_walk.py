"""The front by random walks: whatever was called before, answers are those of what stands.

Calls of a workbench, its project and its quantities are drawn, wrong ones too, with what-ifs within
what-ifs, premises that are kicked out and forgotten, and files that are saved and loaded.
$PROPBENCH_TESTS=20 goes 2,000 walks.
"""

from collections.abc import Callable, Iterable
from typing import Any, TypeVar

import pytest
from conftest import PROGRAMS, TIMES
from hypothesis import given, seed, settings
from hypothesis import strategies as st

from modelling import DAYS, Recipe, cell
from standing import MOST_COST, PEOPLE, REALS, Call, Said, Standing
from walking import Walk

Some = TypeVar("Some")
Walks = list[Call]
LONGEST = 60
NUMBERS = ("x", "y", "z", "x 1", "end", "a start")
PREMISES = ("ill", "wish", "in time", "a takes 2", "way", "a")
WHO = ((), ("ana",), ("ana",), ("ben",), ("ana", "ben"), ("cy",))


class Drawing:
    """Draws calls where something stands, most of them right ones."""

    def __init__(self, draw: Callable[[Any], Any], standing: Standing) -> None:
        self._draw, self.standing = draw, standing
        cells = standing.cells.values()
        self.wide = [it.name for it in cells if isinstance(it.values, range)]
        self.numbers = [it for it in self.wide if len(standing.cells[it].values) < MOST_COST]
        self.truths = [it.name for it in cells if it.values == (False, True)]
        self.elements = [it.name for it in cells if it.values == DAYS]
        self.measured = [it.name for it in cells if it.is_measured]

    def one(self, several: Iterable[Some]) -> Some:
        there: Some = self._draw(st.sampled_from(list(several)))
        return there

    def some(self, several: Iterable[Some], most: int = 2) -> list[Some]:
        there = list(several)
        lists = st.lists(st.sampled_from(there), max_size=most, unique=True)
        found: list[Some] = self._draw(lists) if there else []
        return found

    def number(self, low: int, high: int) -> int:
        found: int = self._draw(st.integers(low, high))
        return found

    def rarely(self) -> bool:
        return self.number(0, 7) == 7

    def premise(self) -> str:
        """A premise, as likely as not one that is there."""
        there = self.standing.premises
        return self.one(there) if there and self.number(0, 1) else self.one(PREMISES)

    def under(self) -> str | None:
        """A premise, or none."""
        return None if self.number(0, 1) else self.premise()

    def values(self, of: str) -> tuple[Any, ...]:
        """What a cell is told to be."""
        made = self.standing.cells[of]
        if made.is_measured:
            return self.reading()
        if isinstance(made.values, range):
            low = self.number(made.values.start, min(made.values.stop, made.values.start + 6))
            return low, low + self.number(0, 2) - self.rarely()
        if made.values == DAYS:
            return tuple(self.some(DAYS, 3)) or ("wed",)
        return (self.one(made.values),)

    def reading(self) -> tuple[Any, ...]:
        """The ends of a reading."""
        return tuple(sorted((self.one(REALS), self.one(REALS))))

    # --- constraints ---

    def truth(self, depth: int) -> Recipe:
        """A constraint over cells that are there."""
        if depth and (self.numbers or self.truths) and self.number(0, 2) == 0:
            sort = self.one(("and", "or", "xor", "implies", "not"))
            parts = (self.truth(0), self.truth(0))
            return (sort, *parts[: 1 if sort == "not" else 2])
        shapes: list[Callable[[], Recipe]] = [self._ordered] * 3 if self.numbers else []
        shapes += [self._told_apart] if self.numbers else []
        shapes += [lambda: cell(self.one(self.truths))] if self.truths else []
        shapes += [self._element] if self.elements else []
        return self.one(shapes)() if shapes else ("constant", True)

    def _ordered(self) -> Recipe:
        order = self.one(("less", "at most", "at least", "equal", "equal", "unequal"))
        return (order, self._whole(), self._operand())

    def _whole(self) -> Recipe:
        """A number that is made of cells."""
        first, sort = cell(self.one(self.numbers)), self.number(0, 8)
        if sort < 4:
            return first
        if sort == 4 and self.truths:
            return ("if", cell(self.one(self.truths)), first, self._operand())
        if sort == 5 and self.elements:
            return ("table", cell(self.one(self.elements)))
        return (
            self.one(("sum", "difference", "product", "maximum", "minimum")),
            first,
            self._operand(),
        )

    def _operand(self) -> Recipe:
        if self.number(0, 1):
            return cell(self.one(self.numbers))
        return ("constant", self.number(-1, 6))

    def _told_apart(self) -> Recipe:
        three = [cell(self.one(self.numbers)) for _ in range(self.number(2, 3))]
        return ("different", *three)

    def _element(self) -> Recipe:
        first, other = (cell(self.one(self.elements)) for _ in range(2))
        return self.one(
            (("early", first), ("later", first, other), ("equal", first, ("constant", "tue")))
        )

    # --- calls ---

    def number_made(self) -> Call:
        low = self.number(-2, 2)
        return ("number", self.one(NUMBERS), low, low + self.number(0, 5) - self.rarely() * 3)

    def require(self) -> Call:
        return ("require", self.under(), self.truth(1))

    def tell(self) -> Call:
        of = self.one(self.standing.cells)
        return ("tell", self.under(), of, self.values(of))

    def choose(self) -> Call:
        sides = [(f"side {n}", [self.truth(0)]) for n in range(self.number(2, 3) - self.rarely())]
        return ("choose", self.one(("way", "or", "a", "ill")), sides)

    def pick(self) -> Call:
        of = self.one([*self.numbers, *self.elements])
        several = {self.values(of) for _ in range(self.number(2, 3))}
        return ("pick", self.one(("way", "or", "a", "ill")), of, sorted(several))

    def believe(self) -> Call:
        return (self.one(("kick", "kick", "bring")), self.premise())

    def forget(self) -> Call:
        return ("forget", self.premise())

    def what_if(self) -> Call:
        return ("what if", *self._change())

    def row(self) -> Call:
        return ("row", *self._change())

    def _change(self) -> tuple[Any, ...]:
        """What is kicked out, brought in and told."""
        kick, bring = self.some(self.standing.premises), self.some(self.standing.premises, 1)
        kick += ["nobody"] if self.rarely() else []
        told = self.some(self.standing.cells, 1) + (["nothing"] if self.rarely() else [])
        cells = self.standing.cells
        tell = [(self.premise(), of, self.values(of) if of in cells else (1, 1)) for of in told]
        return kick, bring, tell

    def behind(self) -> Call:
        return ("behind", self.rarely())

    def task(self) -> Call:
        p = self.standing.project
        before = [*(p.tasks if p else ()), *self.standing.gone_tasks]
        ways = [self._way() for _ in range(1 + (self.number(0, 3) == 3))]
        under = self.premise() if self.rarely() else None
        return ("task", self.one("abc"), ways, self.one(WHO), self.some(before), under)

    def _way(self) -> tuple[int, int]:
        return self.number(0, 3), self.number(1, 3) if self.rarely() else 0

    def away(self) -> Call:
        first = self.number(0, 4)
        last = first + self.number(1, 3) - self.rarely() * 3
        return ("away", self.one(("ana", "ana", "ben", "cy")), first, last, self.under())

    def done_by(self) -> Call:
        p = self.standing.project
        tasks = [*(p.tasks if p else ()), *self.standing.gone_tasks]
        task = self.one(tasks) if tasks and self.number(0, 2) else None
        return ("done by", self.number(0, 6), self.under(), task)

    def plan(self) -> Call:
        return ("plan", self.number(3, 6))

    def load(self) -> Call:
        return ("load",)

    def other_made(self) -> Call:
        return (self.one(("truth", "element")), self.one(("t", "d", "x")))

    def asked_cell(self) -> Call:
        return (self.one(("end", "total cost")),)

    def measure(self) -> Call:
        low, high = self.one(REALS[:4]), self.one(REALS[2:])
        return ("measured", self.one(("q", "r", "s", "x")), low, high)

    def law(self) -> Call:
        left, first, other = (cell(self.one(self.measured)) for _ in range(3))
        sum_of = (self.one(("sum", "product", "maximum")), first, other)
        sort = self.one(("is", "is", "is no more than", "is the root of", "is the part"))
        under = self.under()
        if sort == "is the part":
            return ("law", under, sort, left, first, other)
        return ("law", under, sort, left, sum_of if self.number(0, 3) else first)

    def read(self) -> Call:
        return ("read", self.premise(), self.one(self.measured), *self.reading())

    def gone(self) -> Call:
        return ("gone", self.one(sorted(self.standing.gone)))

    # --- questions ---

    def ask(self) -> Call:
        return ("ask", self.one(self.standing.cells))

    def best(self) -> Call:
        return ("best", self.one(self.wide), self.one(("least", "greatest")))

    def plan_asked(self) -> Call:
        """A question that is put to the program's own search."""
        sort = self.number(0, 7) if self.wide else 7
        if sort < 4:
            return self.best()
        if sort < 6:
            return ("room", self.one([*self.numbers, *self.truths, *self.elements]))
        return self.plans() if sort < 7 else ("some",)

    def changed(self) -> Call:
        """What changes little between two questions."""
        found = [self.believe] * 4 + [self.forget] + [self.tell] * 3 if self.standing.cells else []
        return self.one(found + [self.require, self.choose])()

    def over_all(self) -> Call:
        return ("over all", self.one([*self.wide, *self.truths, *self.elements]))

    def shave(self) -> Call:
        return ("shave", self.one(self.measured))

    def plans(self) -> Call:
        shown = self.some([*self.numbers, *self.truths, *self.elements])
        return ("plans", shown)

    def conflicts(self) -> Call:
        return ("conflicts",)

    def repairs(self) -> Call:
        p = self.standing.project
        return ("repairs", p.facts if p else self.some(self.standing.premises))

    # --- one of them ---

    def call(self, theme: str) -> Call:
        """A call, of what walks of this theme are about."""
        sort = self.number(0, 9)
        if sort < 5:
            return self.one(self._stating(theme))()
        return self.one(self._believing() if sort < 8 else self._asking())()

    def _stating(self, theme: str) -> list[Callable[[], Call]]:
        """The calls that state something, each as often as it is likely."""
        standing, found = self.standing, list[Callable[[], Call]]()
        if theme in ("cells", "all"):
            found += [self.number_made] * 3 + [self.other_made] + [self.require] * 3
            found += [self.choose] + ([self.pick] if self.numbers else [])
        if theme in ("tasks", "all") and standing.project:
            found += [self.task] * 9 + [self.away] * 4 + [self.done_by] * 2 + [self.asked_cell]
        if theme in ("tasks", "all"):
            found += [self.plan] + [self.require]
        if theme in ("quantities", "all"):
            found += [self.measure] * 3
            found += [self.law] * 4 + [self.read] * 4 if self.measured else []
        return found + ([self.tell] * 2 if standing.cells else [])

    def _believing(self) -> list[Callable[[], Call]]:
        """Those that change what is believed or there."""
        standing = self.standing
        found = [self.believe] * 3 + [self.forget] * 2 + [self.load]
        found += [self.what_if] + [self.behind] * 6 if standing.outer else [self.what_if] * 4
        return found + ([self.gone] * 4 if standing.gone else [])

    def _asking(self) -> list[Callable[[], Call]]:
        """Those that ask."""
        found = [self.row] + [self.ask] * 3 if self.standing.cells else [self.row]
        found += [self.shave] if self.measured else []
        if has_laws(self.standing):
            return found
        found += [self.plans, self.conflicts, self.repairs]
        return found + ([self.best, self.best, self.over_all] if self.wide else [])


def has_laws(standing: Standing) -> bool:
    """Whether laws stand: what fits these in whole numbers may take for ever to find out."""
    return any(isinstance(it, Said) and it.recipe[0] == "law" for it in standing.entries)


@st.composite
def walks(draw: st.DrawFn) -> Walks:
    """The calls of a walk, from a project on to one task more, and when it ends then."""
    theme = draw(st.sampled_from(("cells", "tasks", "tasks", "quantities", "all")))
    calls: Walks = [("plan", draw(st.integers(4, 6)))]
    standing = Standing().after(calls[0]) or Standing()
    for _ in range(LONGEST):
        # (a call that is left out is simpler, so a walk that fails is made short)
        if draw(st.booleans()):
            calls.append(Drawing(draw, standing).call(theme))
            standing = standing.after(calls[-1]) or standing
    while standing.outer is not None:
        calls += [("all",), ("behind", False)]
        standing = standing.after(calls[-1]) or standing
    if standing.project is not None:
        last = ("task", "last", [(1, 0)], PEOPLE, list(standing.project.tasks), None)
        calls += [last, ("end",)]
        standing = (standing.after(last) or standing).after(("end",)) or standing
        if "end" in standing.cells and not has_laws(standing):
            calls.append(("best", "end", "least"))
    return [*calls, ("all",)]


@st.composite
def asked_walks(draw: st.DrawFn) -> Walks:
    """The calls of a walk that asks for plans between all that it states."""
    calls: Walks = [("number", "x", 0, 4), ("number", "y", -1, 3), ("element", "d")]
    standing = Standing()
    for call in calls:
        standing = standing.after(call) or standing
    for number in range(draw(st.integers(4, 12))):
        drawing = Drawing(draw, standing)
        made = drawing.call("cells") if number < 3 else drawing.changed()
        calls.append(drawing.plan_asked() if draw(st.booleans()) else made)
        standing = standing.after(calls[-1]) or standing
        calls += [Drawing(draw, standing).plan_asked()]
    return calls


def walk(program: str, calls: Walks) -> None:
    """Goes a walk."""
    gone = Walk(program)
    try:
        for call in calls:
            gone.call(call)
    finally:
        gone.close()


@seed(1)
@settings(max_examples=100 * TIMES)
@given(st.sampled_from(sorted(PROGRAMS.values())), walks())
def test_answers_are_those_of_what_stands(program: str, calls: Walks) -> None:
    walk(program, calls)


@seed(1)
@settings(max_examples=30 * TIMES)
@given(asked_walks())
def test_questions_one_after_the_other_are_those_of_what_stands(wide: str, calls: Walks) -> None:
    """What is kept of earlier questions changes no answer."""
    walk(wide, calls)


ANA = ("ana",)
WAYS = [(2, 0), (1, 0)]
# Short walks that went wrong.
KNOWN: dict[str, Walks] = {
    "who was away in a what-if isn't behind it": [
        ("plan", 30),
        ("task", "a", [(5, 0)], ANA, [], None),
        ("what if", [], [], []),
        ("away", "ana", 0, 20, "ill"),
        ("behind", False),
        ("task", "b", [(2, 0)], ANA, ["a"], None),
        ("end",),
        ("best", "end", "least"),
        ("all",),
    ],
    "who was away where that is forgotten isn't": [
        ("plan", 6),
        ("away", "ana", 0, 4, "ill"),
        ("forget", "ill"),
        ("task", "a", [(2, 0)], ANA, [], None),
        ("all",),
    ],
    "who was away under a name that says something else now isn't": [
        ("plan", 6),
        ("task", "a", [(2, 0)], ANA, [], None),
        ("away", "ana", 0, 4, "ill"),
        ("forget", "ill"),
        ("tell", "ill", "a start", (0, 1)),
        ("task", "b", [(1, 0)], ANA, [], None),
        ("all",),
    ],
    "a task of a what-if is gone, and may be made again": [
        ("plan", 6),
        ("what if", [], [], []),
        ("task", "a", [(2, 0)], ANA, [], None),
        ("behind", True),
        ("task", "b", [(2, 0)], ANA, ["a"], None),
        ("done by", 3, None, "a"),
        ("task", "b", [(2, 0)], ANA, [], None),
        ("task", "a", [(3, 0)], ANA, ["b"], None),
        ("end",),
        ("best", "end", "least"),
        ("all",),
    ],
    "what is forgotten is no fact": [
        ("plan", 6),
        ("task", "a", [(2, 0)], ANA, [], None),
        ("forget", "a takes 2"),
        ("repairs", ()),
        ("all",),
    ],
    "a task that is refused leaves no cells": [
        ("plan", 6),
        ("number", "x", 0, 3),
        ("tell", "a", "x", (1, 1)),
        ("task", "a", WAYS, ANA, [], None),
        ("task", "b", [(1, 0)], ANA, ["a"], None),
        ("task", "b", [(1, 0)], ANA, [], None),
        ("all",),
    ],
    "a wish that is refused makes no end": [
        ("plan", 6),
        ("number", "x", 0, 3),
        ("pick", "way", "x", [(1, 1), (2, 3)]),
        ("task", "a", [(2, 0)], ANA, [], None),
        ("done by", 5, "way", None),
        ("away", "ana", 1, 2, "way"),
        ("task", "b", [(1, 0)], ANA, ["a"], None),
        ("end",),
        ("best", "end", "least"),
        ("all",),
    ],
    "a choice takes the name of a premise that is forgotten": [
        ("number", "x", 0, 3),
        ("tell", "way", "x", (1, 1)),
        ("forget", "way"),
        ("pick", "way", "x", [(2, 2), (1, 3)]),
        ("all",),
    ],
    "a cell of a what-if is gone, also where another has its name": [
        ("what if", [], [], []),
        ("number", "x", 0, 3),
        ("measured", "q", REALS[0], REALS[3]),
        ("behind", False),
        ("gone", "x"),
        ("gone", "q"),
        ("truth", "x"),
        ("gone", "x"),
        ("all",),
    ],
    "a table of what-ifs refuses what they refuse": [
        ("number", "x", 0, 3),
        ("pick", "way", "x", [(1, 1), (2, 3)]),
        ("row", [], [], [("wish", "x", (3, 2))]),
        ("row", [], [], [("way", "x", (1, 1))]),
    ],
}


@pytest.mark.parametrize("program", PROGRAMS.values(), ids=PROGRAMS)
@pytest.mark.parametrize("calls", KNOWN.values(), ids=KNOWN)
def test_known_walks(program: str, calls: Walks) -> None:
    walk(program, calls)
