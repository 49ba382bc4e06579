"""By how much the values of a solution miss what a model's constraints on floats say.

It is worked out from the constraints alone, in exact fractions: nothing that searches has a say.
"""

from collections.abc import Callable, Sequence
from fractions import Fraction
from math import sqrt

from propbench.flatzinc.terms import Constraint, Flat, FlatTerm, Name
from propbench.model.kinds import Point

# What a variable is in a solution.
ResidualValues = Callable[[str], Point | Fraction]


def off_by(flat: Flat, values: ResidualValues) -> Fraction:
    """By how much they miss at the most: 0 where all holds."""
    reading = _Reading(flat, values)
    missed = [reading.off(each) for each in flat.constraints]
    aliases = [each for each in flat.variables.values() if each.is_float and each.value is not None]
    missed += [_far(reading.of(Name(it.name)), reading.of(it.value)) for it in aliases if it.value]
    return max(missed, default=Fraction(0))


class _Reading:
    """The arguments of constraints as numbers."""

    def __init__(self, flat: Flat, values: ResidualValues) -> None:
        self._flat, self._values = flat, values

    def off(self, constraint: Constraint) -> Fraction:
        """By how much a constraint is missed, 0 for one that isn't on floats."""
        name, args = constraint.name, constraint.args
        for ending in ("_reif", "_imp"):
            plain = name.removesuffix(ending)
            if plain != name and plain in _OFF:
                if self.of(args[-1]):
                    return _OFF[plain](self, args[:-1])
                is_open = ending == "_imp" or plain not in _OPPOSITE
                return Fraction(0) if is_open else _OPPOSITE[plain](self, args[:-1])
        return _OFF[name](self, args) if name in _OFF else Fraction(0)

    def of(self, term: FlatTerm) -> Fraction:
        """A value."""
        found = self._flat.resolved(term)
        value = self._values(found.text) if isinstance(found, Name) else found
        assert isinstance(value, (int, Fraction, str))
        return Fraction(value)

    def all_of(self, term: FlatTerm) -> list[Fraction]:
        """An array of values."""
        found = self._flat.resolved(term)
        assert isinstance(found, tuple)
        return [self.of(each) for each in found]

    def above(self, args: Sequence[FlatTerm]) -> Fraction:
        """By how much a sum by factors is above its bound."""
        pairs = zip(self.all_of(args[0]), self.all_of(args[1]))
        return sum((it * each for it, each in pairs), Fraction(0)) - self.of(args[2])


_Off = Callable[[_Reading, Sequence[FlatTerm]], Fraction]
_NONE = Fraction(0)


def _positive(value: Fraction) -> Fraction:
    return max(value, _NONE)


def _far(one: Fraction, other: Fraction) -> Fraction:
    return max(one - other, other - one)


def _value(give: Callable[..., Fraction]) -> _Off:
    """Of a function: how far its value is from the last argument."""
    return lambda reading, args: _far(
        give(*(reading.of(each) for each in args[:-1])), reading.of(args[-1])
    )


def _quotient(reading: _Reading, args: Sequence[FlatTerm]) -> Fraction:
    whole, by, value = (reading.of(each) for each in args)
    # (by zero there is no value, which nothing comes near to)
    return _far(whole / by, value) if by else Fraction(10**9)


def _same(value: Fraction) -> Fraction:
    return value


def _added(one: Fraction, other: Fraction) -> Fraction:
    return one + other


def _multiplied(one: Fraction, other: Fraction) -> Fraction:
    return one * other


def _size(value: Fraction) -> Fraction:
    return max(value, -value)


def _greater(one: Fraction, other: Fraction) -> Fraction:
    return max(one, other)


def _lesser(one: Fraction, other: Fraction) -> Fraction:
    return min(one, other)


def _root(squared: Fraction) -> Fraction:
    return Fraction(sqrt(max(squared, _NONE)))


def _power(base: Fraction, exponent: Fraction) -> Fraction:
    return _root(base) if exponent.denominator == 2 else Fraction(base ** int(exponent))


def _element(reading: _Reading, args: Sequence[FlatTerm]) -> Fraction:
    values = reading.all_of(args[1])
    return _far(values[int(reading.of(args[0])) - 1], reading.of(args[2]))


def _extreme(choose: Callable[[list[Fraction]], Fraction]) -> _Off:
    return lambda reading, args: _far(choose(reading.all_of(args[1])), reading.of(args[0]))


_OFF: dict[str, _Off] = {
    "float_eq": _value(_same),
    "float_ne": lambda reading, args: _NONE,
    "float_le": lambda reading, args: _positive(reading.of(args[0]) - reading.of(args[1])),
    "float_lt": lambda reading, args: _positive(reading.of(args[0]) - reading.of(args[1])),
    "float_lin_eq": lambda reading, args: _far(reading.above(args), _NONE),
    "float_lin_ne": lambda reading, args: _NONE,
    "float_lin_le": lambda reading, args: _positive(reading.above(args)),
    "float_lin_lt": lambda reading, args: _positive(reading.above(args)),
    "float_plus": _value(_added),
    "float_times": _value(_multiplied),
    "float_div": _quotient,
    "float_sqrt": _value(_root),
    "float_pow": _value(_power),
    "float_abs": _value(_size),
    "float_max": _value(_greater),
    "float_min": _value(_lesser),
    "array_float_maximum": _extreme(max),
    "array_float_minimum": _extreme(min),
    "array_float_element": _element,
    "array_var_float_element": _element,
    "int2float": _value(_same),
}
# By how much what is told not to hold does so.
_OPPOSITE: dict[str, _Off] = {
    "float_le": lambda reading, args: _positive(reading.of(args[1]) - reading.of(args[0])),
    "float_lt": lambda reading, args: _positive(reading.of(args[1]) - reading.of(args[0])),
    "float_lin_le": lambda reading, args: _positive(-reading.above(args)),
    "float_lin_lt": lambda reading, args: _positive(-reading.above(args)),
    "float_ne": _value(_same),
    "float_lin_ne": lambda reading, args: _far(reading.above(args), _NONE),
}
