"""Equations with an exponential, as equations of its logarithm: where an exponent may be much or
little, an exponential is told in steps that are too coarse for what it is in the end.
"""

from dataclasses import replace
from fractions import Fraction

from propbench.measuring.bounds import BoundsOf, NoBound
from propbench.measuring.linear import Linear, linear_of, real_of_linear
from propbench.measuring.shapes import Function, FunctionName, Undefined
from propbench.measuring.terms import Law, Real, RealSort, function_of
from propbench.measuring.units import BARE

_LOGARITHMS = {FunctionName.EXP: FunctionName.LN, FunctionName.EXP10: FunctionName.LOG10}
# An exponential that may be so many times as much as it is at least is told by its logarithm.
_WIDE = 10**4


def by_logarithm(law: Law, bounds: BoundsOf) -> Law:
    """The same equation by the logarithm of what an exponential in it is, where this surely is more
    than 0 and the exponential may be much or little; else the law itself."""
    if not law.is_equation:
        return law
    form = linear_of(law.left).plus(linear_of(law.right), Fraction(-1))
    for atom, _ in form.terms:
        exponential = _exponential(atom)
        if exponential is None or not _is_wide(exponential, bounds):
            continue
        value = _value(form, atom, exponential)
        try:
            low, _ = bounds(value)
        except (NoBound, Undefined):
            continue
        if low > 0:
            logarithm = function_of(Function(_LOGARITHMS[exponential.applied.name]), value)
            return Law(exponential.args[0], logarithm, True, law.text)
    return law


def _exponential(atom: Real) -> Real | None:
    """The exponential that an atom is, or of which it is the product with something."""
    if atom.sort is RealSort.FUNCTION and atom.applied.name in _LOGARITHMS:
        return atom
    if atom.sort is RealSort.PRODUCT:
        found = [each for arg in atom.args if (each := _exponential(arg)) is not None]
        return found[0] if len(found) == 1 and found[0] in atom.args else None
    return None


def _is_wide(exponential: Real, bounds: BoundsOf) -> bool:
    try:
        low, high = bounds(exponential)
    except Undefined:
        return True
    return high > _WIDE * low


def _value(form: Linear, atom: Real, exponential: Real) -> Real:
    """What an exponential in a sum is that is zero."""
    others = real_of_linear(form.without(atom).times(-1 / form.coefficient(atom)))
    if atom == exponential:
        return replace(others, dimension=BARE)
    [factor] = [arg for arg in atom.args if arg != exponential]
    return Real(RealSort.QUOTIENT, (others, factor), BARE)
