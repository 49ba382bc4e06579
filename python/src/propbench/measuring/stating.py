"""What a user states of quantities, as events: cells, laws in whole numbers, and readings."""

from collections.abc import Iterable, Iterator, Sequence
from dataclasses import dataclass, field, replace

from propbench.measuring.bends import Bend, Piece
from propbench.measuring.bounds import BoundsOf
from propbench.measuring.combining import combined
from propbench.measuring.defining import Definitions, RootOf
from propbench.measuring.forms import SumForm, forms_of
from propbench.measuring.logarithms import by_logarithm
from propbench.measuring.polynomials import Polynomial, polynomial_of
from propbench.measuring.readings import Reading
from propbench.measuring.terms import Law, Real, RealSort, text_of
from propbench.measuring.translation import LawInSteps, TooCoarse, Translator
from propbench.model.events import CellMade, LawStated, Read
from propbench.model.given import cells_of
from propbench.model.kinds import Plain
from propbench.model.measures import Measure, rounded
from propbench.model.nodes import TRUE, Declared, Node, all_of

# What is too coarse is tried with steps that are finer by up to so many powers of ten.
_FINER = 10


@dataclass(frozen=True)
class StatedLaw:
    """A law in whole numbers: the form as it was written, and a constraint that says this and what
    else follows from it and from other laws."""

    law: Law
    written: LawInSteps
    under: str | None
    constraint: Node
    # The law as a sum of products that is zero, where it is one.
    equation: Polynomial | None


@dataclass(frozen=True)
class LawTold(LawStated):
    """A law of the user's holds, and how it is told."""

    stated: StatedLaw = field(compare=False)


@dataclass(frozen=True)
class BendTold(LawStated):
    """A piece of a curve between two quantities is told."""

    piece: Piece = field(compare=False)

    @property
    def cells(self) -> tuple[Declared, Declared]:
        """The cells between which it lies."""
        return self.piece.bend.argument, self.piece.bend.value


@dataclass(frozen=True)
class RootMade(CellMade):
    """A quantity is there for a root or a function within a law."""

    root: Real = field(compare=False)


@dataclass(frozen=True)
class Defined:
    """What a law needs beside it: the laws and the curves that say what the roots and functions in
    it are."""

    laws: list[StatedLaw]
    bends: list[Bend]


def stated(
    law: Law, before: Sequence[Polynomial], under: str | None, root_of: RootOf
) -> tuple[StatedLaw, Defined]:
    """A law as it is told, and what says what the roots and functions in it are. `before` are
    equations that hold always as this one, with which it may be combined.

    Raises NoBound, Undefined, and TooCoarse, which says what would do, where the law can't be told.
    """
    try:
        return _stated(law, before, under, root_of)
    except TooCoarse as coarse:
        raise TooCoarse(f"{coarse}; {_what_would_do(law)}") from None


def _stated(
    law: Law, before: Sequence[Polynomial], under: str | None, root_of: RootOf
) -> tuple[StatedLaw, Defined]:
    bounds = BoundsOf()
    defined = Definitions(root_of, bounds)
    translator = Translator(bounds, defined.quantity)
    first, *forms = forms_of(by_logarithm(law, bounds), bounds)
    written = translator.told(first.sum, first.is_equation)
    equation = polynomial_of(first.sum) if law.is_equation else None
    if before and equation:
        forms += combined(before, equation)
    constraints = [written.constraint, *(_constraint(translator, form) for form in forms)]
    found = StatedLaw(law, written, under, all_of(constraints), equation)
    laws, bends = [], list(defined.bends)
    for each in defined.laws:
        inner, more = _stated(each, (), under, root_of)
        laws += [inner, *more.laws]
        bends += more.bends
    return found, Defined(laws, bends)


def told_pieces(pieces: Iterable[Piece | None], under: str | None) -> Iterator[BendTold]:
    """Pieces of curves, as they are told; None stands for one of which there is nothing to tell."""
    for piece in pieces:
        if piece is not None:
            yield BendTold(piece.constraint, under, piece.bend.written, piece)


def _what_would_do(law: Law) -> str:
    """Which step of one of its quantities would do for a law."""
    for power in range(1, _FINER):
        for quantity in quantities_in(law):
            assert quantity.measure is not None
            finer = replace(quantity.measure, step=quantity.measure.step / 10**power)
            tried = declared(quantity.name, finer, None)
            try:
                _stated(_with(law, quantity, tried), (), None, _unowned)
            except ValueError:
                continue
            step = rounded(finer.step / finer.factor, False)
            return f"step={step:f} would do for {quantity.name!r}"
    return "ends that are farther from 0 would do"


def _unowned(root: Real, measure: Measure) -> Declared:
    """A root of no workbench."""
    return declared(text_of(root), measure, None)


def _with(law: Law, quantity: Declared, other: Declared) -> Law:
    """A law with another quantity in the place of one."""

    def put(real: Real) -> Real:
        is_it = real.declared is quantity
        return replace(
            real, args=tuple(map(put, real.args)), declared=other if is_it else real.declared
        )

    return replace(law, left=put(law.left), right=put(law.right))


def _constraint(translator: Translator, form: SumForm) -> Node:
    """The constraint of a form that follows anyway: none where it can't be told."""
    try:
        return translator.told(form.sum, form.is_equation).constraint
    except ValueError:
        return TRUE


def declared(name: str, measure: Measure, owner: object) -> Declared:
    """The cell of a quantity."""
    low, high = measure.count(measure.low), measure.count(measure.high)
    return Declared(name, Plain.NUMBER, low, high, owner, measure)


def quantities_in(law: Law) -> list[Declared]:
    """The quantities in a law, each once."""
    found: dict[Declared, None] = {}
    waiting: list[Real] = [law.right, law.left]
    while waiting:
        each = waiting.pop()
        if each.sort is RealSort.QUANTITY:
            found[each.quantity] = None
        waiting += reversed(each.args)
    return list(found)


def read(cell: Declared, reading: Reading, premise: str | None) -> Read:
    """A reading of a quantity, as what its cell may be."""
    assert cell.measure is not None
    return Read(cell, cells_of(cell.measure, reading), premise, reading)
