"""What curves of calibration may be off by, as quantities of their own in an adjustment.

A curve is off by an error that nobody reads: around 0, and no larger than is said of the curve.
What is looked up twice for one argument is off by the same, and for another argument by another
error.
"""

from dataclasses import replace
from fractions import Fraction

from propbench.measuring.quantities import measure_between
from propbench.measuring.stating import declared
from propbench.measuring.terms import Law, Real, RealSort
from propbench.measuring.units import unit_of
from propbench.model.nodes import Declared


class CurveErrors:
    """The errors of the curves in laws: `sizes` has how large each is at the most, in base
    units."""

    def __init__(self) -> None:
        self.sizes: dict[Declared, Fraction] = {}
        self._of: dict[Real, Declared] = {}

    def law(self, law: Law) -> Law:
        """The law, with an error beside each value of a curve."""
        return replace(law, left=self._term(law.left), right=self._term(law.right))

    def _term(self, real: Real) -> Real:
        told = replace(real, args=tuple(map(self._term, real.args))) if real.args else real
        off = real.applied.off if real.sort is RealSort.FUNCTION else Fraction(0)
        if not off:
            return told
        if real not in self._of:
            measure = measure_between(str(real.applied), unit_of("1"), (-off, off), None)
            self._of[real] = declared(str(real.applied), measure, None)
            self.sizes[self._of[real]] = off
        error = Real(RealSort.QUANTITY, (), real.dimension, declared=self._of[real])
        return Real(RealSort.SUM, (told, error), real.dimension)
