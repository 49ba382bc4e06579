"""Between which ends the floats of a model lie, as far as that is seen from its constraints.

An end may be wider than what is possible, never narrower. Ends that somebody told stay.
"""

from collections.abc import Callable, Sequence
from fractions import Fraction
from itertools import product
from math import ceil, isqrt

from propbench.flatzinc.terms import Constraint, Flat, FlatTerm, Name, NotSupported, Reals
from propbench.showing import printable

# An end of what may be without end is None.
End = Fraction | None
FloatEnds = tuple[End, End]
_OPEN: FloatEnds = (None, None)


def rooms_of(flat: Flat) -> dict[str, Reals]:
    """The ends of each float. Raises NotSupported for one that has none."""
    found = _Rooms(flat)
    while found.look():
        continue
    for variable in flat.variables.values():
        if variable.is_float and None in found.ends[variable.name]:
            name = printable(variable.name)
            raise NotSupported(
                variable.line, f"the float {name} has no ends: declare some, as in `var 0.0..9.5`"
            )
    return {name: Reals(*ends) for name, ends in found.ends.items()}


class _Rooms:
    """The ends that are known so far."""

    def __init__(self, flat: Flat) -> None:
        self._flat = flat
        floats = [each for each in flat.variables.values() if each.is_float]
        self.ends: dict[str, FloatEnds] = {it.name: (it.reals.low, it.reals.high) for it in floats}
        # Which are whole numbers.
        whole = (each.args[1] for each in flat.constraints if each.name == "int2float")
        self._whole = {each.text for each in whole if isinstance(each, Name)}
        self._same = [(Name(it.name), it.value) for it in floats if it.value is not None]
        self._is_new = False

    def look(self) -> bool:
        """Goes through the constraints once; whether an end came of it."""
        self._is_new = False
        for one, other in self._same:
            self._equal((one, other))
        for each in self._flat.constraints:
            if each.name in _LOOKS:
                _LOOKS[each.name](self, each.args)
        return self._is_new

    def of(self, term: FlatTerm) -> FloatEnds:
        """The ends of a value."""
        found = self._flat.resolved(term)
        if isinstance(found, (Fraction, int)):
            return Fraction(found), Fraction(found)
        if not isinstance(found, Name):
            return _OPEN
        if found.text in self.ends:
            return self.ends[found.text]
        values = self._flat.variables[found.text].values
        if values is None or not values.ranges:
            return _OPEN
        return Fraction(values.ranges[0][0]), Fraction(values.ranges[-1][1])

    def of_all(self, term: FlatTerm) -> list[FloatEnds]:
        """The ends of each element of an array."""
        return [self.of(each) for each in self._array(term)]

    def narrow(self, term: FlatTerm, low: End, high: End) -> None:
        """Takes in ends of a variable that has none there yet."""
        found = self._flat.resolved(term)
        if isinstance(found, Name) and found.text in self.ends:
            before = self.ends[found.text]
            after = tuple(new if old is None else old for old, new in zip(before, (low, high)))
            self._is_new = self._is_new or after != before
            self.ends[found.text] = (after[0], after[1])

    def _array(self, term: FlatTerm) -> Sequence[FlatTerm]:
        found = self._flat.resolved(term)
        return found if isinstance(found, tuple) else ()

    # --- by constraints ---

    def _equal(self, args: Sequence[FlatTerm]) -> None:
        self.narrow(args[0], *self.of(args[1]))
        self.narrow(args[1], *self.of(args[0]))

    def _at_most(self, args: Sequence[FlatTerm]) -> None:
        self.narrow(args[0], None, self.of(args[1])[1])
        self.narrow(args[1], self.of(args[0])[0], None)

    def _sum(self, args: Sequence[FlatTerm], is_equal: bool) -> None:
        """The ends of each by those of all others, of which the sum by factors is no more."""
        given = map(self._flat.resolved, self._array(args[0]))
        factors = [Fraction(it) for it in given if isinstance(it, (Fraction, int))]
        self.sum(factors, self._array(args[1]), self.of(args[2]), is_equal)

    def sum(
        self,
        factors: Sequence[Fraction],
        terms: Sequence[FlatTerm],
        bound: FloatEnds,
        is_equal: bool,
    ) -> None:
        """The same of a sum that is no more than a bound, or is the same."""
        parts = [_times(self.of(each), (it, it)) for it, each in zip(factors, terms)]
        for place, (factor, term) in enumerate(zip(factors, terms)):
            others = [*parts[:place], *parts[place + 1 :]]
            low, high = _less(bound[0], _total(others, 1)), _less(bound[1], _total(others, 0))
            left = (low if is_equal else None, high)
            if factor:
                self.narrow(term, *_times(left, (1 / factor, 1 / factor)))

    def _plus(self, args: Sequence[FlatTerm]) -> None:
        ones = [Fraction(1), Fraction(1), Fraction(-1)]
        self.sum(ones, args, (Fraction(0), Fraction(0)), True)

    def _product(self, args: Sequence[FlatTerm]) -> None:
        one, other, whole = (self.of(each) for each in args)
        self.narrow(args[2], *_times(one, other))
        self.narrow(args[0], *_times(whole, _inverse(other)))
        self.narrow(args[1], *_times(whole, _inverse(one)))

    def _quotient(self, args: Sequence[FlatTerm]) -> None:
        self._product((args[2], args[1], args[0]))
        by, (low, high) = args[1], self.of(args[0])
        if isinstance(by, Name) and by.text in self._whole and low is not None and high is not None:
            # (which isn't zero, and so no less than one either way)
            most = max(-low, high, Fraction(0))
            self.narrow(args[2], -most, most)

    def _greatest(self, args: Sequence[FlatTerm]) -> None:
        self._extreme(args[2], [self.of(each) for each in args[:2]], max)
        for each in args[:2]:
            self.narrow(each, None, self.of(args[2])[1])

    def _least(self, args: Sequence[FlatTerm]) -> None:
        self._extreme(args[2], [self.of(each) for each in args[:2]], min)
        for each in args[:2]:
            self.narrow(each, self.of(args[2])[0], None)

    def _extreme(
        self,
        term: FlatTerm,
        ends: Sequence[FloatEnds],
        choose: Callable[[list[Fraction]], Fraction],
    ) -> None:
        lows, highs = [low for low, _ in ends], [high for _, high in ends]
        known = [[it for it in some if it is not None] for some in (lows, highs)]
        made = [choose(some) if len(some) == len(ends) else None for some in known]
        self.narrow(term, made[0], made[1])

    def _absolute(self, args: Sequence[FlatTerm]) -> None:
        low, high = self.of(args[0])
        most = None if low is None or high is None else max(-low, high, Fraction(0))
        self.narrow(args[1], Fraction(0), most)
        most = self.of(args[1])[1]
        self.narrow(args[0], None if most is None else -most, most)

    def _root(self, args: Sequence[FlatTerm]) -> None:
        squared, root = self.of(args[0])[1], self.of(args[1])[1]
        self.narrow(args[0], Fraction(0), None if root is None else root * root)
        over = None if squared is None else Fraction(isqrt(ceil(max(squared, Fraction(0)))) + 1)
        self.narrow(args[1], Fraction(0), over)

    def _power(self, args: Sequence[FlatTerm]) -> None:
        exponent = self._flat.resolved(args[1])
        if not isinstance(exponent, (Fraction, int)) or exponent not in range(1, 64):
            return
        ends = self.of(args[0])
        found = ends
        for _ in range(int(exponent) - 1):
            found = _times(found, ends)
        self.narrow(args[2], *found)

    def _element(self, args: Sequence[FlatTerm]) -> None:
        ends = [it for both in self.of_all(args[1]) for it in both]
        known = [it for it in ends if it is not None]
        if known and len(known) == len(ends):
            self.narrow(args[2], min(known), max(known))

    def _of_array(
        self, args: Sequence[FlatTerm], choose: Callable[[list[Fraction]], Fraction]
    ) -> None:
        self._extreme(args[0], self.of_all(args[1]), choose)


def _total(parts: Sequence[FloatEnds], end: int) -> End:
    total = Fraction(0)
    for each in parts:
        part = each[end]
        if part is None:
            return None
        total += part
    return total


def _less(one: End, other: End) -> End:
    return None if one is None or other is None else one - other


def _times(one: FloatEnds, other: FloatEnds) -> FloatEnds:
    if Fraction(0) in one and one[0] == one[1] or Fraction(0) in other and other[0] == other[1]:
        return Fraction(0), Fraction(0)
    factor = other[0]
    if factor is not None and factor == other[1]:
        # (of one factor an end that there isn't leaves the other)
        low, high = (None if end is None else end * factor for end in one)
        return (low, high) if factor > 0 else (high, low)
    known = [it for it in (*one, *other) if it is not None]
    if len(known) < 4:
        return _OPEN
    corners = [left * right for left, right in product(known[:2], known[2:])]
    return min(corners), max(corners)


def _inverse(ends: FloatEnds) -> FloatEnds:
    """The ends of 1 divided by what lies between these; none where that may be zero."""
    low, high = ends
    if low is None or high is None or low <= 0 <= high:
        return _OPEN
    return 1 / high, 1 / low


_Look = Callable[[_Rooms, Sequence[FlatTerm]], None]
_LOOKS: dict[str, _Look] = {
    "float_eq": _Rooms._equal,
    "int2float": lambda rooms, args: rooms._equal(args),
    "float_le": _Rooms._at_most,
    "float_lt": _Rooms._at_most,
    "float_lin_eq": lambda rooms, args: rooms._sum(args, True),
    "float_lin_le": lambda rooms, args: rooms._sum(args, False),
    "float_lin_lt": lambda rooms, args: rooms._sum(args, False),
    "float_plus": _Rooms._plus,
    "float_times": _Rooms._product,
    "float_div": _Rooms._quotient,
    "float_max": _Rooms._greatest,
    "float_min": _Rooms._least,
    "float_abs": _Rooms._absolute,
    "float_sqrt": _Rooms._root,
    "float_pow": _Rooms._power,
    "array_float_element": _Rooms._element,
    "array_var_float_element": _Rooms._element,
    "array_float_maximum": lambda rooms, args: rooms._of_array(args, max),
    "array_float_minimum": lambda rooms, args: rooms._of_array(args, min),
}
