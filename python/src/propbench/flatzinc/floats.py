"""Floats as whole steps: what a constraint on real numbers says of the steps next to them.

A real number stands for the step that is nearest to it, of two the one farther from zero. So what
holds of some real numbers says something of their steps (`loose`): where nothing fits that, no real
numbers fit. Of steps themselves a constraint holds as exactly as they can tell (`exact`).
"""

from collections.abc import Callable, Sequence
from dataclasses import dataclass
from fractions import Fraction
from math import ceil, floor, lcm
from typing import Protocol

from propbench.flatzinc.arithmetic import (
    NO,
    YES,
    constant,
    every,
    picked,
    same_truth,
    sides_of,
    within,
)
from propbench.flatzinc.rooms import rooms_of
from propbench.flatzinc.terms import Constraint, Flat, FlatTerm, Name, NotSupported, Numbers
from propbench.model.expressions import Number, Truth, implies, maximum, minimum
from propbench.model.ranges import range_of

# So many steps make one at the most, and so great the numbers are that they come to.
_FINEST, _GREATEST = 10**6, 10**17
_HALF = Fraction(1, 2)
# What multiplies floats with one another.
_PRODUCTS = ("float_times", "float_div", "float_sqrt", "float_pow")
# The premise under which constraints hold as exactly as steps can tell.
EXACT = "in steps"

# A number of steps, or a constant as it is written.
FloatAmount = Number | Fraction


@dataclass(frozen=True)
class FloatSaid:
    """What a constraint says of steps: of themselves, of some real numbers next to them, and of
    some for which it doesn't hold."""

    exact: Truth
    loose: Truth
    denied: Truth = YES

    @staticmethod
    def always(truth: Truth) -> "FloatSaid":
        """What holds of steps just where it does of the real numbers."""
        return FloatSaid(truth, truth, ~truth)

    @property
    def opposite(self) -> "FloatSaid":
        """The same of the opposite."""
        return FloatSaid(~self.exact, self.denied, self.loose)


class FloatValues(Protocol):
    """What terms of a model stand for in a workbench."""

    def number(self, term: FlatTerm) -> Number:
        """A whole number."""

    def truth(self, term: FlatTerm) -> Truth:
        """A truth."""

    def elements(self, term: FlatTerm) -> list[FlatTerm]:
        """The elements of an array, as they stand."""

    def steps(self, name: str) -> Number:
        """How many steps a float is, where it isn't fixed."""


class Floats:
    """The floats of a model, and how many steps make one."""

    def __init__(self, flat: Flat) -> None:
        """Raises NotSupported where one has no ends."""
        self._flat = flat
        self.rooms = rooms_of(flat)
        self.per_unit = _FINEST
        while self.per_unit > 1 and not self._has_room(self.per_unit):
            self.per_unit //= 10

    def fixed(self, name: str) -> Fraction | None:
        """The only value that a float may have, None where it may have others."""
        return self.rooms[name].value

    def ends(self, name: str) -> tuple[int, int]:
        """Between which steps a float lies: the first above the last where it can't be any."""
        room = self.rooms[name]
        assert room.low is not None and room.high is not None
        return self.step(room.low), self.step(room.high)

    def step(self, value: Fraction) -> int:
        """The step that is nearest to a number."""
        return self._step(value, self.per_unit)

    @staticmethod
    def _step(value: Fraction, per_unit: int) -> int:
        size = floor(abs(value) * per_unit + _HALF)
        return size if value >= 0 else -size

    def said(self, values: FloatValues, constraint: Constraint) -> FloatSaid:
        """What a constraint on floats says. Raises NotSupported."""
        reading = _Reading(self, values, constraint)
        for ending, is_same in (("_reif", True), ("_imp", False)):
            name = constraint.name.removesuffix(ending)
            if name != constraint.name:
                said = _SAYS[name](reading, constraint.args[:-1])
                return _switched(said, values.truth(constraint.args[-1]), is_same)
        return _SAYS[constraint.name](reading, constraint.args)

    def _has_room(self, per_unit: int) -> bool:
        """Whether numbers stay small enough for the program by so many steps."""
        ends = [it for room in self.rooms.values() for it in (room.low, room.high) if it]
        most = max([per_unit, *(abs(self._step(it, per_unit)) for it in ends)])
        is_product = any(each.name in _PRODUCTS for each in self._flat.constraints)
        return most * most <= _GREATEST if is_product else most <= _GREATEST // 10**3


def _switched(said: FloatSaid, truth: Truth, is_same: bool) -> FloatSaid:
    """What is said where a truth tells whether it holds, or holds only if it does."""
    if not is_same:
        return FloatSaid(implies(truth, said.exact), implies(truth, said.loose))
    both = every([implies(truth, said.loose), implies(~truth, said.denied)])
    return FloatSaid(same_truth(said.exact, truth), both)


@dataclass(frozen=True)
class _Sum:
    """A sum by factors, taken so many times that they are whole, and what it is compared with.

    So much it is off at the most, as factors were rounded (`rounded`), and as each float is off by
    half a step (`half`); by half a step of the `least` factor it may be off in steps themselves.
    """

    factors: list[int]
    numbers: list[Number]
    bound: Fraction
    rounded: Fraction
    half: Fraction
    least: Fraction

    def at_most(self, bound: Fraction) -> Truth:
        """That it is no more than a bound."""
        left, right = sides_of(self.factors, self.numbers, floor(bound))
        return left <= right

    def at_least(self, bound: Fraction) -> Truth:
        """That it is no less."""
        left, right = sides_of(self.factors, self.numbers, ceil(bound))
        return left >= right

    def near(self, off: Fraction) -> Truth:
        """That it is the bound, or is off by so much."""
        low, high = self.bound - off, self.bound + off
        return every([self.at_least(low), self.at_most(high)]) if ceil(low) <= floor(high) else NO


class _Reading:
    """The arguments of a constraint, as steps."""

    def __init__(self, floats: Floats, values: FloatValues, constraint: Constraint) -> None:
        self.floats, self.values, self.constraint = floats, values, constraint

    @property
    def unit(self) -> int:
        """How many steps make one."""
        return self.floats.per_unit

    def amount(self, term: FlatTerm) -> FloatAmount:
        """A constant, or the steps of a float."""
        found = self.floats._flat.resolved(term)
        if isinstance(found, (Fraction, int)):
            return Fraction(found)
        if not (isinstance(found, Name) and found.text in self.floats.rooms):
            raise self.refused("a float is wanted")
        fixed = self.floats.fixed(found.text)
        return self.values.steps(found.text) if fixed is None else fixed

    def amounts(self, term: FlatTerm) -> list[FloatAmount]:
        """An array of these."""
        return [self.amount(each) for each in self.values.elements(term)]

    def constants(self, term: FlatTerm) -> list[Fraction]:
        """An array of constants."""
        found = [self.amount(each) for each in self.values.elements(term)]
        return [each for each in found if isinstance(each, Fraction)]

    def steps(self, amount: FloatAmount) -> Number:
        """The steps of an amount: those of a constant are the nearest."""
        return constant(self.floats.step(amount)) if isinstance(amount, Fraction) else amount

    def refused(self, text: str) -> NotSupported:
        """What is raised where the constraint isn't supported."""
        return NotSupported(self.constraint.line, f"{self.constraint.name}: {text}")

    def sum(
        self, factors: Sequence[Fraction], amounts: Sequence[FloatAmount], bound: Fraction
    ) -> _Sum:
        """A sum by factors, compared with a bound."""
        pairs = list(zip(factors, amounts, strict=True))
        fixed = sum((it * each for it, each in pairs if isinstance(each, Fraction)), Fraction(0))
        open_ones = [(it, each) for it, each in pairs if isinstance(each, Number) and it]
        target = (bound - fixed) * self.unit
        sizes = [self._most(each) for _, each in open_ones]
        total = abs(target) + sum(abs(it) * (size + 1) for (it, _), size in zip(open_ones, sizes))
        if total > _GREATEST:
            # (what is beyond the program's numbers would be refuted)
            raise self.refused("its numbers are too great: floats need ends closer to zero")
        times = lcm(*(it.denominator for it, _ in open_ones))
        if times * total > _GREATEST:
            times = _largest(total)
        whole = [floor(it * times + _HALF) for it, _ in open_ones]
        rounded = sum(
            (abs(it * times - made) * size for (it, _), made, size in zip(open_ones, whole, sizes)),
            Fraction(0),
        )
        own = [abs(it) * times / 2 for it, _ in open_ones]
        numbers = [each for _, each in open_ones]
        least = min(own, default=Fraction(0))
        return _Sum(whole, numbers, target * times, rounded, sum(own, Fraction(0)), least)

    def _most(self, number: Number) -> int:
        low, high = range_of(number.node)
        return max(abs(low), abs(high))


def _largest(total: Fraction) -> int:
    """The greatest power of ten by which a sum is taken."""
    times = 1
    while times * 10 * total <= _GREATEST:
        times *= 10
    return times


# --- sums and comparisons ---

FloatSays = Callable[[_Reading, tuple[FlatTerm, ...]], FloatSaid]


def _sum_at_most(made: _Sum) -> FloatSaid:
    off = made.half + made.rounded
    loose, denied = made.at_most(made.bound + off), made.at_least(made.bound - off)
    return FloatSaid(made.at_most(made.bound + made.rounded), loose, denied)


def _sum_less(made: _Sum) -> FloatSaid:
    said = _sum_at_most(made)
    return FloatSaid(made.at_most(Fraction(ceil(made.bound) - 1)), said.loose, said.denied)


def _sum_equal(made: _Sum) -> FloatSaid:
    exact = made.near(made.least + made.rounded)
    if not made.numbers:
        return FloatSaid.always(exact)
    return FloatSaid(exact, made.near(made.half + made.rounded))


def _sums(compare: Callable[[_Sum], FloatSaid]) -> FloatSays:
    def says(reading: _Reading, args: tuple[FlatTerm, ...]) -> FloatSaid:
        [bound] = reading.constants((args[2],))
        return compare(reading.sum(reading.constants(args[0]), reading.amounts(args[1]), bound))

    return says


def _at_most(reading: _Reading, args: tuple[FlatTerm, ...]) -> FloatSaid:
    """Of two the greater one has no lower step."""
    left, right = (reading.amount(each) for each in args)
    if isinstance(left, Fraction) and isinstance(right, Fraction):
        return FloatSaid.always(YES if left <= right else NO)
    one, other = reading.steps(left), reading.steps(right)
    exact = one <= other
    if isinstance(left, Fraction):
        exact = other >= ceil(left * reading.unit)
    if isinstance(right, Fraction):
        exact = one <= floor(right * reading.unit)
    return FloatSaid(exact, one <= other, other <= one)


def _less(reading: _Reading, args: tuple[FlatTerm, ...]) -> FloatSaid:
    return _at_most(reading, (args[1], args[0])).opposite


def _equal(reading: _Reading, args: tuple[FlatTerm, ...]) -> FloatSaid:
    left, right = (reading.amount(each) for each in args)
    if isinstance(left, Fraction) and isinstance(right, Fraction):
        return FloatSaid.always(YES if left == right else NO)
    same = reading.steps(left) == reading.steps(right)
    return FloatSaid(same, same)


def _unequal(reading: _Reading, args: tuple[FlatTerm, ...]) -> FloatSaid:
    return _equal(reading, args).opposite


def _from_whole(reading: _Reading, args: tuple[FlatTerm, ...]) -> FloatSaid:
    whole, amount = reading.values.number(args[0]), reading.amount(args[1])
    if isinstance(amount, Number):
        return FloatSaid.always(whole * reading.unit == amount)
    return FloatSaid.always(whole == int(amount) if amount.denominator == 1 else NO)


# --- functions ---


def _plus(reading: _Reading, args: tuple[FlatTerm, ...]) -> FloatSaid:
    ones = [Fraction(1), Fraction(1), Fraction(-1)]
    return _sum_equal(reading.sum(ones, [reading.amount(each) for each in args], Fraction(0)))


def _times(reading: _Reading, args: tuple[FlatTerm, ...]) -> FloatSaid:
    one, other, whole = (reading.amount(each) for each in args)
    if isinstance(one, Fraction) or isinstance(other, Fraction):
        factor, amount = (one, other) if isinstance(one, Fraction) else (other, one)
        assert isinstance(factor, Fraction)
        return _sum_equal(reading.sum([factor, Fraction(-1)], [amount, whole], Fraction(0)))
    return _product(reading, one, other, reading.steps(whole))


def _product(reading: _Reading, one: Number, other: Number, whole: Number) -> FloatSaid:
    """A product of steps lies by the steps of a product: by half of one step of each it is off."""
    sizes = _size(one) + _size(other)
    product, steps = one * other, whole * reading.unit
    exact = _near(product * 2, steps * 2, sizes + reading.unit)
    loose = _near(product * 4, steps * 4, sizes * 2 + (2 * reading.unit + 1))
    return FloatSaid(exact, loose)


def _near(one: Number, other: Number, off: Number) -> Truth:
    """That two numbers are no more than so much apart."""
    return every([one <= other + off, other <= one + off])


def _size(number: Number) -> Number:
    return number if range_of(number.node)[0] >= 0 else abs(number)


def _divided(reading: _Reading, args: tuple[FlatTerm, ...]) -> FloatSaid:
    whole, divisor, quotient = args
    by = reading.amount(divisor)
    if isinstance(by, Fraction):
        if by == 0:
            return FloatSaid.always(NO)
        amounts = [reading.amount(whole), reading.amount(quotient)]
        return _sum_equal(reading.sum([1 / by, Fraction(-1)], amounts, Fraction(0)))
    said = _times(reading, (quotient, divisor, whole))
    return FloatSaid(every([said.exact, by != 0]), said.loose)


def _root(reading: _Reading, args: tuple[FlatTerm, ...]) -> FloatSaid:
    squared, root = reading.steps(reading.amount(args[0])), reading.steps(reading.amount(args[1]))
    said, is_root = _product(reading, root, root, squared), root >= 0
    return FloatSaid(every([said.exact, is_root]), every([said.loose, is_root]))


def _power(reading: _Reading, args: tuple[FlatTerm, ...]) -> FloatSaid:
    exponent = reading.amount(args[1])
    if exponent == 2:
        return _times(reading, (args[0], args[0], args[2]))
    if exponent == 1:
        return _equal(reading, (args[0], args[2]))
    if exponent == _HALF:
        return _root(reading, (args[0], args[2]))
    raise reading.refused("exponents are 0.5, 1 and 2 alone")


def _found(give: Callable[[list[Number]], Number]) -> FloatSays:
    """A function that gives the step of its value for the steps of its arguments: one that keeps
    the order of numbers, and gives one of these."""

    def says(reading: _Reading, args: tuple[FlatTerm, ...]) -> FloatSaid:
        *given, value = (reading.steps(reading.amount(each)) for each in args)
        return FloatSaid.always(give(given) == value)

    return says


def _found_of_array(give: Callable[[list[Number]], Number]) -> FloatSays:
    def says(reading: _Reading, args: tuple[FlatTerm, ...]) -> FloatSaid:
        value, given = reading.amount(args[0]), reading.amounts(args[1])
        return FloatSaid.always(give([*map(reading.steps, given)]) == reading.steps(value))

    return says


def _element(reading: _Reading, args: tuple[FlatTerm, ...]) -> FloatSaid:
    index, given = reading.values.number(args[0]), reading.amounts(args[1])
    found = picked(index, 1, [reading.steps(each) for each in given])
    is_index = within(index, Numbers.span(1, len(given)))
    return FloatSaid.always(every([is_index, found == reading.steps(reading.amount(args[2]))]))


_SAYS: dict[str, FloatSays] = {
    "float_eq": _equal,
    "float_ne": _unequal,
    "float_le": _at_most,
    "float_lt": _less,
    "float_lin_eq": _sums(_sum_equal),
    "float_lin_ne": _sums(lambda made: _sum_equal(made).opposite),
    "float_lin_le": _sums(_sum_at_most),
    "float_lin_lt": _sums(_sum_less),
    "float_plus": _plus,
    "float_times": _times,
    "float_div": _divided,
    "float_sqrt": _root,
    "float_pow": _power,
    "float_abs": _found(lambda given: abs(given[0])),
    "float_max": _found(maximum),
    "float_min": _found(minimum),
    "array_float_maximum": _found_of_array(maximum),
    "array_float_minimum": _found_of_array(minimum),
    "array_float_element": _element,
    "array_var_float_element": _element,
    "int2float": _from_whole,
}


def is_of_floats(name: str) -> bool:
    """Whether a constraint is one on floats."""
    return any(name.removesuffix(ending) in _SAYS for ending in ("_reif", "_imp", ""))
