"""What roots and functions within laws are: quantities of their own, with what defines each."""

from collections.abc import Callable
from dataclasses import dataclass, field
from fractions import Fraction

from propbench.measuring.bends import Bend
from propbench.measuring.bounds import Bounds, BoundsOf
from propbench.measuring.curves import Segments
from propbench.measuring.quantities import measure_between
from propbench.measuring.shapes import Join, branches, shape_of
from propbench.measuring.terms import Law, Real, RealSort, constant, function_of, text_of
from propbench.measuring.units import Unit, dimension_text
from propbench.model.measures import Measure
from propbench.model.nodes import Declared

# Gives a quantity that the user didn't name, for a term within a law, by what its cell counts.
RootOf = Callable[[Real, Measure], Declared]


@dataclass
class Definitions:
    """The quantities that stand for roots and functions in a law, what else has to hold for them,
    and the curves between them."""

    root_of: RootOf
    bounds: BoundsOf
    laws: list[Law] = field(default_factory=list)
    bends: list[Bend] = field(default_factory=list)
    _made: dict[Real, Real] = field(default_factory=dict)

    def quantity(self, real: Real) -> Real:
        """The quantity that stands for a root, or for a function of a term."""
        if real not in self._made:
            bounds = self.bounds(real)
            made = self._made[real] = self._quantity(real, bounds)
            if real.sort is RealSort.ROOT:
                square = Real(RealSort.POWER, (made,), real.args[0].dimension, Fraction(2))
                self.laws.append(Law(square, real.args[0], True, f"{text_of(real)} is a root"))
            else:
                self._bend(real, made)
        return self._made[real]

    def _quantity(self, real: Real, bounds: Bounds) -> Real:
        made = self.root_of(real, _measure_of(real, bounds))
        return Real(RealSort.QUANTITY, (), real.dimension, declared=made)

    def _bend(self, real: Real, value: Real) -> None:
        """What a function of a term is: a curve, or some that are joined."""
        function, [inner] = real.applied, real.args
        shape = shape_of(function, self.bounds(inner))
        if len(shape.curves) == 1:
            argument, [curve] = self._argument(inner), shape.curves
            ends = (value, argument) if shape.is_inverse else (argument, value)
            cells = ends[0].quantity, ends[1].quantity
            self.bends.append(Bend(curve, *cells, function.off, text_of(real)))
            return
        parts = [function_of(each, inner) for each in branches(function, shape)]
        joined = parts[0]
        for part, curve, join in zip(parts[1:], shape.curves[1:], shape.joins):
            if join is Join.SUM:
                assert isinstance(curve, Segments)
                level = constant(curve.points[0][1], real.dimension)
                risen = Real(RealSort.DIFFERENCE, (part, level), real.dimension)
                joined = Real(RealSort.SUM, (joined, risen), real.dimension)
            else:
                sort = RealSort.LEAST if join is Join.LEAST else RealSort.GREATEST
                joined = Real(sort, (joined, part), real.dimension)
        self.laws.append(Law(value, joined, True, f"{text_of(real)} in parts"))

    def _argument(self, inner: Real) -> Real:
        """The quantity of which a function is taken."""
        if inner.sort is RealSort.QUANTITY:
            return inner
        if inner not in self._made:
            self._made[inner] = self._quantity(inner, self.bounds(inner))
            self.laws.append(Law(self._made[inner], inner, True, f"what {text_of(inner)} is"))
        return self._made[inner]


def _measure_of(real: Real, bounds: Bounds) -> Measure:
    """What the cell of a root or a function counts, in base units."""
    unit = Unit(dimension_text(real.dimension) if real.dimension else "1", real.dimension)
    return measure_between(text_of(real), unit, bounds, None)
