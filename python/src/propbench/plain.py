"""A workbench of whole numbers, truths, elements and symbols: cells, what is stated, what follows.

`propbench.workbench` has the same with measured quantities and projects, which take longer to
import than all of this.
"""

from __future__ import annotations

import os
from collections.abc import Collection, Iterable, Iterator, Mapping, Sequence
from contextlib import ExitStack, contextmanager, suppress
from typing import TYPE_CHECKING, TypeVar, overload
from weakref import WeakValueDictionary

from propbench.clock import Clock
from propbench.closing import Closing
from propbench.finding import find_wide
from propbench.given import names_given, path_given
from propbench.model.answers import Answer, Conflict, NotSettled, ends_of
from propbench.model.cells import (
    Cell,
    ElementCell,
    NumberCell,
    SymbolCell,
    TruthCell,
    gone,
)
from propbench.model.choosing import MOST_ALTERNATIVES
from propbench.model.events import (
    CellMade,
    Choice,
    ConstraintChoice,
    DomainMade,
    Required,
    Told,
    ValueChoice,
)
from propbench.model.expressions import Expression, Truth, node_of, point_of
from propbench.model.first import First
from propbench.model.given import GivenValue, alternative_of, values_of
from propbench.model.kinds import Domain, Kind, Plain, kind_text
from propbench.model.network import Network
from propbench.model.nodes import Declared, Node, cells_in
from propbench.model.reading import Reader
from propbench.model.seam import BenchModel
from propbench.nearby import near_names
from propbench.program import OutOfTime
from propbench.questions import Questions
from propbench.refusals import UnknownCommand
from propbench.replies import Contradiction, Settled, Value, Worldview
from propbench.session import Session

if TYPE_CHECKING:
    from propbench.model.saving import Noted, Saved
    from propbench.model.tabling import Table
    from propbench.page import Page
    from propbench.pictures import Film, Picture
    from propbench.questions.bounding import Optimum
    from propbench.watching import Claim

# What each alternative of a choice states: one constraint or several.
Alternative = Truth | bool | Sequence[Truth | bool]
SomeCell = TypeVar("SomeCell", bound=Cell)
_SomeBench = TypeVar("_SomeBench", bound="PlainWorkbench")
_UNTOLD = "what makes up a value is told by propwide, and this program is another"
_MAY_BE_FEWER = "there was no time to find out whether fewer of these are in conflict"
_LACKS = "The program has no rule of its own for {}: answers may be wider than those of propwide."


class PlainWorkbench(Questions, Closing):
    """A workbench without measured quantities and projects: all else of a `Workbench`."""

    def __init__(
        self,
        program: str | os.PathLike[str] | None = None,
        *,
        order: str = "fifo",
        seed: int = 0,
        limit: int | None = None,
    ) -> None:
        """Starts the program: the one given, else that of $PROPWIDE or $PROPBENCH, else propwide,
        and else propbench, which has fewer rules (`lacks` tells what is missed). Its options are
        those of a `Session`."""
        found = find_wide(program).path
        self._owner = object()
        self._network = Network(Session(found, order=order, seed=seed, limit=limit))
        # The cells that anyone has, by how they were declared.
        self._cells: WeakValueDictionary[Declared, Cell] = WeakValueDictionary()

    def close(self) -> None:
        """Ends the program. Nothing can be stated or asked after that.

        >>> w = Workbench()
        >>> w.close()  # as the end of `with Workbench() as w:` does
        """
        self._network.close()

    @property
    def session(self) -> Session:
        """The session that the workbench speaks through.

        >>> w = Workbench()
        >>> print(w.session.send("cell by_hand span"))
        ok
        """
        return self._network.session

    @property
    def network(self) -> Network:
        """What was stated, and how it stands on lines: what views are made of.

        >>> w = Workbench()
        >>> x = w.number("x", 0, 9)
        >>> list(w.network.cells)
        ['x']
        """
        return self._network

    @property
    def model(self) -> BenchModel:
        """The workbench as questions see it, which take many asks.

        >>> w = Workbench()
        >>> x = w.number("x", 0, 9)
        >>> w.model.candidates("x")
        range(0, 10)
        """
        return BenchModel(self._network)

    @property
    def proved(self) -> bool:
        """Whether the program is known to be built from proofs.

        >>> w = Workbench()
        >>> w.proved in (True, False)
        True
        """
        return self._network.session.proved

    @property
    def lacks(self) -> tuple[str, ...]:
        """What was written so far for which the program has no procedure of its own. At single
        values it is decided all the same; before that answers may be wider than propwide's.

        >>> w = Workbench()
        >>> w.lacks
        ()
        """
        return tuple(self._network.lacks)

    # --- cells ---

    def number(self, name: str, low: int | None = None, high: int | None = None) -> NumberCell:
        """A cell for a whole number from `low` to `high`, each of which may be left open. Raises
        ValueError where no number lies between them, and for a name that is taken.

        >>> w = Workbench()
        >>> days = w.number("days", 1, 30)
        >>> days.ask().value
        Span(low=1, high=30)
        """
        ends = [end if end is None else point_of(end, Plain.NUMBER) for end in (low, high)]
        least, most = (None if end is None else int(end) for end in ends)
        if least is not None and most is not None and least > most:
            raise ValueError(f"from {low} to {high} there is no number, for {name!r}")
        return self._added(NumberCell(self._declared(name, Plain.NUMBER, least, most), self))

    def truth(self, name: str) -> TruthCell:
        """A cell for a truth. Raises ValueError for a name that is taken.

        >>> w = Workbench()
        >>> warm, dry = w.truth("warm"), w.truth("dry")
        >>> w.require(warm & ~dry)
        >>> warm.ask().value, dry.ask().value
        (True, False)
        """
        return self._added(TruthCell(self._declared(name, Plain.TRUTH), self))

    def domain(self, name: str, elements: str | Iterable[str]) -> Domain:
        """A domain of these elements, given in one text with spaces between or one by one. Raises
        ValueError for none, for more than 64, and for an element that stands twice.

        >>> w = Workbench()
        >>> day = w.domain("day", "mon tue wed")
        >>> day.elements
        ('mon', 'tue', 'wed')
        """
        names = names_given(elements)
        if not 1 <= len(names) <= 64:
            raise ValueError(f"a domain has one to 64 elements, and {name!r} {len(names)}")
        is_there = name in self._network.domains
        if is_there or len(set(names)) < len(names):
            what = "there is one" if is_there else "an element stands twice"
            raise ValueError(f"no domain {name!r} can be made: {what}")
        made = Domain(name, names)
        self._network.do(DomainMade(made))
        return made

    def element(self, name: str, domain: Domain) -> ElementCell:
        """A cell for an element of a domain that this workbench has made. Raises TypeError for a
        domain that it hasn't made.

        >>> w = Workbench()
        >>> review = w.element("review", w.domain("day", "mon tue wed"))
        >>> w.require(review != "mon")
        >>> print(review.ask().value)
        {tue wed}
        """
        if not isinstance(domain, Domain) or self._network.domains.get(domain.name) is not domain:
            raise TypeError(f"{domain!s} is no domain of this workbench: make one by `w.domain`")
        return self._added(ElementCell(self._declared(name, domain), self))

    def symbol(self, name: str) -> SymbolCell:
        """A cell for a symbol, which is any name.

        >>> w = Workbench()
        >>> colour = w.symbol("colour")
        >>> w.fix(colour, "red")
        >>> colour.ask().value
        'red'
        """
        return self._added(SymbolCell(self._declared(name, Plain.SYMBOL), self))

    def cell(self, name: str) -> Cell:
        """The cell of this name. Raises ValueError where there is none.

        >>> w = Workbench()
        >>> x = w.number("x", 0, 9)
        >>> w.cell("x") is x
        True
        """
        if not isinstance(name, str):
            raise TypeError(f"a cell is named by a text: {name!r}")
        if name not in self._network.cells:
            near = near_names(name, self._network.cells)
            hint = f" Did you mean {' or '.join(map(repr, near))}?" if near else ""
            raise ValueError(f"no cell is called {name!r}.{hint}")
        return self._cell(self._network.cells[name])

    @property
    def cells(self) -> tuple[Cell, ...]:
        """The cells, in the order in which they were made.

        >>> w = Workbench()
        >>> x, y = w.number("x", 0, 9), w.number("y", 0, 9)
        >>> [cell.name for cell in w.cells]
        ['x', 'y']
        """
        return tuple(map(self._cell, self._network.cells.values()))

    # --- statements ---

    def require(self, constraint: Truth | bool, under: str | None = None) -> None:
        """States a constraint, always or under a premise.

        While the premise is kicked out the constraint has no effect at all, also where it is false
        or can't be worked out; while it is believed it tells as much as one that holds always.
        `w.lines(constraint)` shows what is sent.

        >>> w = Workbench()
        >>> x = w.number("x", 0, 9)
        >>> w.require(2 * x >= 7, under="much")
        >>> print(x.ask())
        x = 4..9 because of much
        """
        node = self.constraint_of(constraint)
        if under is not None:
            self._network.premises.check(under)
        self._network.do(Required(node, under))

    def constraint_of(self, constraint: Truth | bool) -> Node:
        """What a constraint on cells of this workbench says. Raises TypeError and ValueError.

        >>> w = Workbench()
        >>> x = w.number("x", 0, 9)
        >>> w.constraint_of(x >= 3).op.name
        'AT_LEAST'
        """
        if isinstance(constraint, Expression) and not isinstance(constraint, Truth):
            raise TypeError(f"`{constraint!r}` is {kind_text(constraint.node.kind)}, no constraint")
        node = node_of(constraint, Plain.TRUTH)
        self._check_own(node)
        return node

    def fix(self, cell: Cell, value: GivenValue, high: int | None = None) -> None:
        """States that a cell has a value, always: a number, or the numbers up to `high`; a truth, a
        name, or a list of elements of which it is one; of a quantity a reading. Raises TypeError
        for a value of another kind, ValueError for one that the cell can't hold.

        >>> w = Workbench()
        >>> x, day = w.number("x", 0, 9), w.element("day", w.domain("days", "mon tue wed"))
        >>> w.fix(x, 3, 5)
        >>> w.fix(day, ["mon", "tue"])
        >>> print(x.ask().value, day.ask().value)
        3..5 {mon tue}
        """
        self._tell(None, cell, value, high)

    def tell(self, premise: str, cell: Cell, value: GivenValue, high: int | None = None) -> None:
        """States the same under a premise. Raises as `fix` does.

        >>> w = Workbench()
        >>> x = w.number("x", 0, 9)
        >>> w.tell("Ana", x, 3, 5)
        >>> w.tell("Ben", x, 5, 8)
        >>> print(x.ask())
        x = 5 because of Ana, Ben
        """
        self._network.premises.check(premise)
        self._tell(premise, cell, value, high)

    def _tell(self, premise: str | None, cell: Cell, value: GivenValue, high: object) -> None:
        own = self._own(cell)
        self._network.do(Told(own, values_of(own, value, high), premise))

    # --- premises ---

    @property
    def premises(self) -> tuple[str, ...]:
        """The premises, in the order of their first mention.

        >>> w = Workbench()
        >>> x = w.number("x", 0, 9)
        >>> w.tell("Ana", x, 3)
        >>> w.kick("Ana")
        >>> w.premises
        ('Ana',)
        """
        return tuple(self._network.premises.believed)

    @property
    def believed(self) -> tuple[str, ...]:
        """The premises that are believed.

        >>> w = Workbench()
        >>> x = w.number("x", 0, 9)
        >>> w.tell("Ana", x, 3)
        >>> w.tell("Ben", x, 4)
        >>> w.kick("Ana")
        >>> w.believed
        ('Ben',)
        """
        return tuple(self._network.premises.in_force)

    def kick(self, premise: str) -> None:
        """What is stated under the premise does not count from now on. Raises ValueError where
        there is no such premise.

        >>> w = Workbench()
        >>> x = w.number("x", 0, 9)
        >>> w.tell("Ana", x, 3)
        >>> w.kick("Ana")
        >>> print(x.ask().value)
        0..9
        """
        self._network.premises.check_known(premise)
        self._network.kick(premise)

    def bring(self, premise: str) -> None:
        """What is stated under the premise counts again. Raises ValueError where there is no such
        premise.

        >>> w = Workbench()
        >>> x = w.number("x", 0, 9)
        >>> w.tell("Ana", x, 3)
        >>> w.kick("Ana")
        >>> w.bring("Ana")
        >>> x.ask().value
        3
        """
        self._network.premises.check_known(premise)
        self._network.bring(premise)

    def forget(self, premise: str) -> None:
        """What is stated under the premise goes for good, and the premise with it. Raises
        ValueError where there is no such premise.

        >>> w = Workbench()
        >>> x = w.number("x", 0, 9)
        >>> w.tell("Ana", x, 3)
        >>> w.forget("Ana")
        >>> w.premises
        ()
        """
        self._network.premises.check_known(premise)
        self._network.forget(premise)

    # --- choices ---

    @overload
    def choose(self, name: str, cell: Cell, alternatives: Sequence[object]) -> None:
        ...

    @overload
    def choose(self, name: str, cell: Mapping[str, Alternative]) -> None:
        ...

    def choose(
        self,
        name: str,
        cell: Cell | Mapping[str, Alternative],
        alternatives: Sequence[object] | None = None,
    ) -> None:
        """Makes a choice between two to 64 alternatives, the one to be tried first in front.

        They are values of a cell, or, by name, constraints that hold together:

            w.choose("plan", price, [1400, 2000])
            w.choose("venue", {"hotel": [days == 2, price == 4000], "uni": [days == 5]})

        Answers are those of one plan, the first that fits: choices in the order in which they were
        made, alternatives as they stand. A pair of numbers is from the one to the other.

        >>> w = Workbench()
        >>> days, price = w.number("days", 0, 30), w.number("price", 0, 9000)
        >>> w.choose("venue", {"hotel": [days == 2, price == 4000], "uni": [days == 5]})
        >>> w.choose("fee", price, [1400, (2000, 3000)])
        >>> print(days.ask().value, days.ask().choices)
        5 {'venue': 'uni', 'fee': 1400}
        """
        self._network.premises.check_choice(name)
        given = cell if isinstance(cell, Mapping) else alternatives
        if not isinstance(given, Collection):
            raise TypeError(
                f"{name!r} is a choice between a list of values of a cell, as `w.choose(name,"
                " price, "
                "[1400, 2000])`, or between constraints by name, as in a dict"
            )
        if not 2 <= len(given) <= MOST_ALTERNATIVES:
            raise ValueError(
                f"a choice has two to {MOST_ALTERNATIVES} alternatives, and {name!r} has"
                f" {len(given)}"
            )
        event: Choice
        if isinstance(cell, Mapping):
            named = [(side, self._constraints(stated)) for side, stated in cell.items()]
            event = ConstraintChoice(name, tuple(named))
        else:
            own = self._own(cell)
            event = ValueChoice(name, own, tuple(alternative_of(own, each) for each in given))
        self._network.do(event)

    # --- questions ---

    def try_first(self, *groups: tuple[Sequence[Cell], bool]) -> None:
        """Has questions that take many asks try out values of these cells before those of others,
        group by group, and in each the cell with the fewest values first. A group is some cells,
        and whether of their values the greatest comes first. It changes no answer, but when it
        comes.

        >>> w = Workbench()
        >>> x, y = w.number("x", 0, 9), w.number("y", 0, 9)
        >>> w.require(x + y == 9)
        >>> w.try_first(([x], True))
        >>> w.solve()["x"] + w.solve()["y"]
        9
        """
        self._network.try_first(
            tuple(
                First(tuple(self._own(cell).name for cell in cells), is_from_top)
                for cells, is_from_top in groups
            )
        )

    def settle(self, *, seconds: float | None = None) -> bool:
        """Whether all that follows was found, and nothing speaks against it: False at a conflict.

        Raises NotSettled where the run is cut first, and OutOfTime where the program hangs.

        >>> w = Workbench()
        >>> x = w.number("x", 0, 9)
        >>> w.require(x >= 3, under="much")
        >>> w.require(x <= 2, under="little")
        >>> w.settle()
        False
        """
        reply = self.session.send("settle", seconds=seconds)
        if isinstance(reply, (Settled, Contradiction)):
            return isinstance(reply, Settled)
        raise NotSettled("the run was cut before it settled: ask again, it goes on from there")

    def answer(
        self, command: str, cell: Declared, seconds: float | None, over: str | None
    ) -> Answer:
        """What follows for a cell: by `why`, or by `core`. This is what `x.ask()` and `x.core()`
        call.

        >>> w = Workbench()
        >>> x = w.number("x", 0, 9)
        >>> w.tell("Ana", x, 3, 5)
        >>> w.answer("core", x.declared, None, None).because
        ('Ana',)
        """
        if self._network.cells.get(cell.name) is not cell:
            self._check_there([cell])
        if over is not None:
            if over != "all plans":
                raise ValueError(f'an answer may be over="all plans", and not over={over!r}')
            return self._over_all_plans(cell, seconds)
        # (these take a while each to be looked at, and cells are asked often)
        session, names = self._network.session, self._network.vocabulary
        premises, clock = self._network.premises, Clock(seconds, None)
        reply = session.send(f"{command} {names.cells.line(cell.name)}", seconds=seconds)
        if not isinstance(reply, Value):
            assert isinstance(reply, Contradiction)
            raise self._conflict(reply, clock.seconds_left())
        read = Reader(names, premises)
        if not premises.choices:
            return read.answer(cell, reply, {})
        if seconds is not None and not reply.settled:
            return read.answer(cell, reply, {})
        if command == "core" and reply.settled and not clock.is_over():
            # (after a core every procedure is called once more, before the plan is known)
            with suppress(OutOfTime):
                session.send("worldview", seconds=clock.seconds_left())
        return read.answer(cell, reply, self._plan(clock))

    def table(self, *cells: Cell, seconds: float | None = None) -> Table:
        """What follows for these cells, of all where none is given, as a table.

        Raises Conflict where what is believed can't all hold, and OutOfTime where values can't be
        asked for in time, as the program is at work yet.

        >>> w = Workbench()
        >>> x, y = w.number("x", 0, 9), w.number("y", 0, 9)
        >>> w.tell("Ana", x, 3)
        >>> w.require(y > x)
        >>> w.table(x, y).rows
        [('x', '3', 'Ana'), ('y', '4..9', 'Ana')]
        """
        from propbench.model.tabling import Table

        declared = [self._own(cell) for cell in cells] or list(self._network.cells.values())
        clock = Clock(seconds, None)
        reply = self.session.send("settle", seconds=seconds)
        if isinstance(reply, Contradiction):
            raise self._conflict(reply, clock.seconds_left())
        names = self._network.vocabulary.cells
        asks = [f"why {names.line(cell.name)}" for cell in declared]
        replies = self.session.look(asks, until=clock.last)
        clash = next((each for each in replies if isinstance(each, Contradiction)), None)
        if clash:
            raise self._conflict(clash, clock.seconds_left())
        plan, read = self._plan(clock), self._reader
        answers = tuple(
            read.answer(cell, reply, plan)
            for cell, reply in zip(declared, replies)
            if isinstance(reply, Value)
        )
        return Table(answers, read.choices(plan), tuple(self._notes(answers)))

    def show(self, *cells: Cell) -> None:
        """Prints what follows for these cells, or for all; at a conflict, what can't all hold.

        >>> w = Workbench()
        >>> x = w.number("x", 0, 9)
        >>> w.require(x >= 3, under="much")
        >>> w.require(x <= 2, under="little")
        >>> w.show(x)
        CONFLICT: much, little can't all hold
          much: x >= 3
          little: x <= 2
        """
        print(self._shown(*cells))

    def _repr_html_(self) -> str:
        shown = self._shown()
        return shown if isinstance(shown, str) else shown._repr_html_()

    def _shown(self, *cells: Cell) -> Table | str:
        try:
            return self.table(*cells)
        except Conflict as conflict:
            return f"CONFLICT: {conflict}"

    # --- views ---

    def picture(self, cell: Cell | None = None) -> Picture:
        """A picture of the network, or of what bears on a cell: cells with their values, the
        constraints between them, and premises, those that are out in grey. A notebook shows it;
        `.svg` and `.save(path)` need Graphviz. Of more than 60 cells those that play the same part
        are drawn as one. Raises NoGraphviz where there is no Graphviz to draw it.

        >>> w = Workbench()
        >>> x = w.number("x", 0, 9)
        >>> w.picture(x).dot.startswith("digraph")
        True
        """
        from propbench.pictures import picture_of
        from propbench.watching.of_workbench import WorkbenchWatched

        name = None if cell is None else self._own(cell).name
        return picture_of(WorkbenchWatched(self), name)

    def how(self, cell: Cell | Optimum, *, seconds: float | None = None) -> Claim:
        """What makes up what follows for a cell, as `cell.how()` gives it; or why nothing is better
        than what `least` or `greatest` has found, by premises that it names. Raises ValueError over
        a program that doesn't tell, and for an optimum that isn't proved.

        A tree of more than 12 lines is printed by the chain that makes the value, and by how many
        others of which kind it rests on; `.whole()` has all, `.of("x")` what is known of a cell.

        >>> w = Workbench()
        >>> x, y = w.number("x", 0, 9), w.number("y", 0, 9)
        >>> w.require(y == x + 1)
        >>> w.tell("Ana", x, 3)
        >>> print(w.how(y))
        y = 4, by y == x + 1
          x = 3, told by Ana
        """
        from propbench.questions.bounding import Optimum
        from propbench.questions.goals import Optima
        from propbench.watching.of_workbench import WorkbenchWatched

        clock = Clock(seconds, None)
        if isinstance(cell, Optima):
            raise TypeError("each goal has a reason of its own: `w.how(best.steps[0])`")
        try:
            if isinstance(cell, Optimum):
                return WorkbenchWatched(self).how_best(cell, clock)
            declared = self._own(cell)
            self.answer("why", declared, seconds, None)
            return WorkbenchWatched(self).how(declared.name, clock.last)
        except UnknownCommand:
            raise ValueError(_UNTOLD) from None

    def film(self, steps: int = 12) -> Film:
        """The first steps that change something, of a run from nothing, as a strip of pictures.
        Raises NoGraphviz where there is no Graphviz to draw it.

        >>> w = Workbench()
        >>> x, y = w.number("x", 0, 9), w.number("y", 0, 9)
        >>> w.require(y == x + 1)
        >>> w.tell("Ana", x, 3)
        >>> w.film(steps=3).frames[0].number
        0
        """
        from propbench.pictures import film_of
        from propbench.watching.of_workbench import WorkbenchWatched

        return film_of(WorkbenchWatched(self), steps)

    def serve(self, *, port: int = 0, wait: bool = True) -> Page:
        """Serves the workbench as a page, on this machine alone, and prints its address; until
        Ctrl-C. Where it is not to `wait`, the page is given at once: `page.address` is where it is,
        and `page.close()` ends it; whoever uses the workbench meanwhile does so `with page.held()`.

        >>> w = Workbench()
        >>> x = w.number("x", 0, 9)
        >>> page = w.serve(wait=False)  # doctest: +ELLIPSIS
        The page is at http://127.0.0.1:...
        >>> page.close()
        """
        from propbench.page import serve
        from propbench.watching.of_workbench import WorkbenchWatched

        return serve(WorkbenchWatched(self), "a workbench", port=port, wait=wait)

    # --- lines ---

    def lines(self, constraint: Truth) -> list[str]:
        """The lines of the language that state a constraint, where it was required.

        With them stand those that make the cells in them which have no name of yours. Raises
        ValueError for one that was not required.

        Lines may rest on other constraints: where `z == x + y` holds, `z` stands for that sum. Of
        all that is stated, of choices, what is told and projects too, the file that `save` writes
        has the lines, each below a comment that tells what it stands for.

        >>> w = Workbench()
        >>> x = w.number("x", 0, 9)
        >>> much = x >= 3
        >>> w.require(much)
        >>> w.lines(much)
        ['fix x 3..1000000000000000000']
        """
        return self._lines(constraint, [node_of(constraint, Plain.TRUTH)])

    # --- files ---

    def save(self, path: str | os.PathLike[str]) -> None:
        """Writes the workbench to a file, whole or not at all.

        It is a session of the language, whose comments tell what its lines are for. Raises OSError;
        a file that is there stays then.

        >>> w = Workbench()
        >>> x = w.number("x", 3, 3)
        >>> w.save("plan.prop")
        >>> Workbench.load("plan.prop").cell("x").ask().value
        3
        """
        from propbench.files import write_file
        from propbench.model.saving import saved

        lines = saved(self._network, self._noted())
        write_file(path_given(path), "".join(f"{line}\n" for line in lines))

    @classmethod
    def load(
        cls: type[_SomeBench],
        path: str | os.PathLike[str],
        program: str | os.PathLike[str] | None = None,
    ) -> _SomeBench:
        """The workbench of a file that `save` has written; `cell` gives its cells by name.

        Raises NotAWorkbench, a ValueError, where the file is none, or its lines were changed.

        >>> w = Workbench()
        >>> x = w.number("x", 3, 3)
        >>> w.save("plan.prop")
        >>> [cell.name for cell in Workbench.load("plan.prop").cells]
        ['x']
        """
        from propbench.model.saving import read

        with open(path_given(path), encoding="utf-8") as file:
            lines = file.read().split("\n")
        owner = object()
        found = read(lines, owner)
        with ExitStack() as closing:
            made = cls(program)
            closing.callback(made.close)
            made._owner = owner
            made._take_in(found)
            for premise in found.kicked:
                made.kick(premise)
            closing.pop_all()
        return made

    def _noted(self) -> "Noted":
        """What is noted of events in a file."""
        return lambda event: None

    def _take_in(self, found: "Saved") -> None:
        """Carries out what a file has."""
        for event in found.events:
            self._network.do(event)

    # --- within ---

    @contextmanager
    def _set_aside(self) -> Iterator[None]:
        """Has a copy of the network, in a session of its own, stand in its place for a while. All
        that is stated is the network's, so what is stated meanwhile ends with the copy."""
        kept = self._network
        try:
            self._network = kept.copy()
            yield
        finally:
            copy, self._network = self._network, kept
            if copy is not kept:
                copy.close()

    @property
    def _reader(self) -> Reader:
        """What reads replies as answers."""
        return Reader(self._network.vocabulary, self._network.premises)

    def _notes(self, answers: Sequence[Answer]) -> Iterator[str]:
        """What is to be known of the answers, and of the program."""
        from propbench.overview import UNPROVED

        if self.lacks:
            yield _LACKS.format(", ".join(self.lacks))
        if not self.proved:
            yield UNPROVED

    def _read(self, cell: str, reply: Value, inside: Iterable[str]) -> Answer:
        """A reply about a cell of a session that has this one's lines, with these sides."""
        read = self._reader
        return read.answer(self._network.cells[cell], reply, read.plan(inside))

    def _over_all_plans(self, cell: Declared, seconds: float | None) -> Answer:
        """What the cell may be in some plan, whatever the choices take."""
        from propbench.questions.overall import over_all_plans

        clock = Clock(seconds, None)
        found = over_all_plans(self, cell, seconds)
        if found is None:
            conflict = next(iter(self.conflicts(most=1, seconds=clock.seconds_left())), ())
            says = {name: self._network.premises.text(name) for name in conflict}
            raise Conflict(tuple(says), says)
        value, is_settled = found
        low, high = ends_of(value)
        return Answer(cell.name, value, low, high, is_settled, self.believed)

    def _known(self, cell: Declared, clock: Clock) -> Answer:
        """What follows for a cell as far as there is time, or what is known of it where there is
        none. Raises OutOfTime."""
        if not clock.is_over():
            return self.answer("why", cell, clock.seconds_left(), None)
        line = self._network.vocabulary.cells.line(cell.name)
        [reply] = self.session.look([f"why {line}"], until=clock.last)
        if isinstance(reply, Contradiction):
            raise self._conflict(reply, 0)
        assert isinstance(reply, Value)
        return self._reader.answer(cell, reply, {})

    def _plan(self, clock: Clock) -> dict[str, int]:
        """For each choice the place of the alternative that it stands on, where a run has found
        that, and it is told in time."""
        if not self._network.premises.choices:
            return {}
        try:
            [reply] = self.session.look(["worldview"], until=clock.last)
        except OutOfTime:
            return {}
        return self._reader.plan(reply.inside) if isinstance(reply, Worldview) else {}

    def _conflict(self, found: Contradiction, seconds: float | None = None) -> Conflict:
        """The conflict, made small as far as there is time."""
        from propbench.model.blaming import always, beyond
        from propbench.model.shrinking import shrink

        names, clock = self._network.vocabulary.premises, Clock(seconds, None)
        believed = [names.line(name) for name in self._network.premises.in_force]
        kept = list(found.premises)
        with suppress(OutOfTime), self._network.tried() as session:
            shrink(session, believed, kept, clock)
        says = {name: self._network.premises.text(name) for name in map(names.text, kept)}
        if says and clock.is_over():
            return Conflict(tuple(says), says, (_MAY_BE_FEWER,))
        notes = beyond(self._network, list(says), clock.seconds_left())
        texts = [] if says else always(self._network, clock.seconds_left())
        if texts:
            notes.append(f"not all of this: {'; '.join(texts)}")
        return Conflict(tuple(says), says, tuple(notes))

    def _declared(
        self, name: str, kind: Kind, low: int | None = None, high: int | None = None
    ) -> Declared:
        self._check_name(name)
        return Declared(name, kind, low, high, self._owner)

    def _check_name(self, name: str) -> None:
        if not isinstance(name, str) or not name:
            raise TypeError(f"a cell is named by a text: {name!r}")
        if name in self._network.cells:
            raise ValueError(f"there is a cell of this name: {name!r}")

    def _added(self, cell: SomeCell) -> SomeCell:
        self._network.do(CellMade(cell.declared))
        self._cells[cell.declared] = cell
        return cell

    def _cell(self, declared: Declared) -> Cell:
        """The cell that was declared so, the same as long as anyone has it."""
        found = self._cells.get(declared)
        if found is None:
            found = self._cells[declared] = self._cell_of(declared)
        return found

    def _cell_of(self, declared: Declared) -> Cell:
        """A cell that was declared so, by its kind."""
        if isinstance(declared.kind, Domain):
            return ElementCell(declared, self)
        classes = {Plain.NUMBER: NumberCell, Plain.TRUTH: TruthCell, Plain.SYMBOL: SymbolCell}
        return classes[declared.kind](declared, self)

    def _lines(self, constraint: object, nodes: Iterable[Node]) -> list[str]:
        """The lines that state a constraint, which stands for these. Raises ValueError where there
        are none."""
        found = list(dict.fromkeys(line for node in nodes for line in self._network.lines_of(node)))
        if not found:
            raise ValueError(f"`{constraint!r}` was not required: state it by `w.require` first")
        return found

    def _own(self, cell: object) -> Declared:
        """The cell, where it is one of this workbench. Raises TypeError and ValueError."""
        if not isinstance(cell, Cell):
            hint = f": write `w.require({cell!r} == ..)`" if isinstance(cell, Expression) else ""
            raise TypeError(f"`{cell!r}` is no cell{hint}")
        self._check_own(cell.node)
        return cell.declared

    def _check_own(self, node: Node) -> None:
        self._check_there(cells_in(node))

    def _check_there(self, cells: Iterable[Declared]) -> None:
        known = self._network.cells
        for cell in cells:
            if cell.owner is not self._owner:
                raise ValueError(f"{cell.name!r} is a cell of another workbench")
            if known.get(cell.name) is not cell:
                raise gone(cell.name)

    def _constraints(self, stated: Alternative) -> tuple[Node, ...]:
        """The constraints of an alternative."""
        if not isinstance(stated, Expression | bool | Iterable):
            raise TypeError(f"an alternative states constraints, and {stated!r} is none")
        several = [stated] if isinstance(stated, (Expression, bool)) else list(stated)
        nodes = tuple(node_of(each, Plain.TRUTH) for each in several)
        for node in nodes:
            self._check_own(node)
        return nodes
