"""Cells: what a user declares, states and asks."""

from typing import TYPE_CHECKING, Protocol

from propbench.model.answers import Answer
from propbench.model.expressions import Element, Expression, Number, SymbolExpression, Truth
from propbench.model.kinds import Domain
from propbench.model.nodes import Declared, cell

if TYPE_CHECKING:
    from propbench.pictures import Picture
    from propbench.watching import Claim


class Answerer(Protocol):
    """Who answers for a cell: a workbench."""

    def answer(
        self, command: str, cell: Declared, seconds: float | None, over: str | None
    ) -> Answer:
        """The answer to `why` or `core`."""

    def how(self, cell: "Cell", *, seconds: float | None = None) -> "Claim":
        """What makes up what follows for a cell."""

    def picture(self, cell: "Cell | None" = None) -> "Picture":
        """A picture of what bears on a cell."""


class Cell(Expression):
    """A cell: it has a name, and can be asked what follows for it."""

    def __init__(self, declared: Declared, workbench: Answerer) -> None:
        """Of a workbench, which makes it. Raises TypeError for what was not declared there."""
        if not isinstance(declared, Declared):
            raise TypeError(
                f"{declared!r}: a workbench makes a cell, as w.number('days', 0, 60), and a "
                "quantity, as w.measured('length', 'm', 0, 100)"
            )
        super().__init__(cell(declared))
        self._declared = declared
        self._workbench = workbench

    @property
    def name(self) -> str:
        """The name, as it was given.

        >>> w = Workbench()
        >>> w.number("days off", 0, 9).name
        'days off'
        """
        return self._declared.name

    @property
    def declared(self) -> Declared:
        """The cell as it was declared.

        >>> w = Workbench()
        >>> days = w.number("days", 1, 30)
        >>> days.declared.low, days.declared.high
        (1, 30)
        """
        return self._declared

    def ask(self, *, over: str | None = None, seconds: float | None = None) -> Answer:
        """What follows for the cell. Under choices that is the answer in one plan, the first that
        fits; with `over="all plans"` it is the true range over all of them.

        It may be wider than what plans have, never narrower: `w.slack(x)` tells their range,
        `x.how()` what makes up the answer, `w.sensitivity(x)` what each premise is worth.

        A run that isn't done after `seconds` is cut, and the answer says that it isn't settled.
        Raises Conflict where what is believed can't all hold.

        >>> w = Workbench()
        >>> x = w.number("x", 0, 9)
        >>> w.choose("way", x, [2, 7])
        >>> x.ask().value
        2
        >>> x.ask(over="all plans").value
        Span(low=2, high=7)
        """
        return self._workbench.answer("why", self._declared, seconds, over)

    def why(self, *, seconds: float | None = None) -> Answer:
        """The same as `ask`: `because` has premises that are enough for it.

        >>> w = Workbench()
        >>> x = w.number("x", 0, 9)
        >>> w.tell("Ana", x, 3, 5)
        >>> x.why().because
        ('Ana',)
        """
        return self._workbench.answer("why", self._declared, seconds, None)

    def core(self, *, seconds: float | None = None) -> Answer:
        """The same, from premises of which none can be left out.

        >>> w = Workbench()
        >>> x = w.number("x", 0, 9)
        >>> w.tell("Ana", x, 3, 5)
        >>> w.tell("Ben", x, 4)
        >>> x.core().because
        ('Ben',)
        """
        return self._workbench.answer("core", self._declared, seconds, None)

    def how(self, *, seconds: float | None = None) -> "Claim":
        """What makes up what follows for the cell: the constraints and statements that lead to it,
        with what is known of other cells on the way. Printed it is a tree; `ways` are its branches.

        Raises Conflict where what is believed can't all hold, and ValueError where the program is
        not propwide, which alone tells this.

        >>> w = Workbench()
        >>> x, y = w.number("x", 0, 9), w.number("y", 0, 9)
        >>> w.require(y == x + 1)
        >>> w.tell("Ana", x, 3)
        >>> print(y.how())
        y = 4, by y == x + 1
          x = 3, told by Ana
        """
        return self._workbench.how(self, seconds=seconds)

    def picture(self) -> "Picture":
        """A picture of what bears on the cell, as a notebook shows it.

        >>> w = Workbench()
        >>> x = w.number("x", 0, 9)
        >>> x.picture().dot.startswith("digraph")
        True
        """
        return self._workbench.picture(self)


class NumberCell(Cell, Number):
    """A cell for a whole number."""


class TruthCell(Cell, Truth):
    """A cell for a truth."""


class ElementCell(Cell, Element):
    """A cell for an element of a domain."""

    @property
    def elements(self) -> tuple[str, ...]:
        """The elements of the domain.

        >>> w = Workbench()
        >>> w.element("review", w.domain("day", "mon tue")).elements
        ('mon', 'tue')
        """
        assert isinstance(self._declared.kind, Domain)
        return self._declared.kind.elements


class SymbolCell(Cell, SymbolExpression):
    """A cell for a symbol."""


def gone(name: str) -> ValueError:
    """What is raised for a cell of this name that is not there any more."""
    return ValueError(f"{name!r} was made in a what-if that is over: make it anew")
