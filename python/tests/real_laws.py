"""Random laws over random reals that fit them: exact fractions, worked out beside the terms."""

import random
from collections.abc import Callable
from dataclasses import dataclass, field
from fractions import Fraction
from math import isqrt

from propbench import Workbench, maximum, mean, minimum, total
from propbench.measuring.quantities import Quantity
from propbench.measuring.stating import RootMade
from propbench.measuring.terms import Law, Made, Real, RealSort, Term, real_of
from propbench.model.events import Required, Told
from propbench.model.nodes import Declared
from real_devices import Drawn as DrawnDevice
from real_devices import device_for, reals_of_devices

# Of these sorts a quantity is: units in base units, so that sums fit, and a bare number.
UNITS = [("mm", Fraction(1, 1000)), ("m", Fraction(1)), ("inch", Fraction(254, 10_000))]
STEPS = [Fraction(1), Fraction(1, 10), Fraction(1, 1000), Fraction(1, 4), Fraction(1, 10**6)]


class Unfit(Exception):
    """What was drawn is no case: a divisor that may be zero, a root that is no fraction."""


@dataclass
class Drawn:
    """A term, and what it is in base units."""

    term: Term
    value: Fraction


@dataclass
class Case:
    """A workbench with a law, and reals that fit it, in base units, by the names of quantities."""

    w: Workbench
    draw: random.Random
    reals: dict[str, Fraction] = field(default_factory=dict)
    units: dict[str, Fraction] = field(default_factory=dict)
    quantities: dict[str, Quantity] = field(default_factory=dict)
    laws: list[Law] = field(default_factory=list)
    # The quantities that laws give, in order, and what they give for each.
    given: list[tuple[str, Real]] = field(default_factory=list)
    devices: dict[str, DrawnDevice] = field(default_factory=dict)

    def quantity(self, value: Fraction, *, is_positive: bool = False) -> Drawn:
        """A quantity that has this value, in base units, between ends around it."""
        draw = self.draw
        unit, factor = draw.choice(UNITS)
        number = value / factor
        room = max(abs(number), Fraction(1)) * Fraction(draw.choice([1, 2, 10, 300, 5000]), 10)
        low = number - room * Fraction(draw.randint(0, 10), 10)
        high = number + room * Fraction(draw.randint(0, 10), 10)
        if is_positive and low <= 0:
            low = number * Fraction(draw.randint(1, 10), 10)
        step = draw.choice(STEPS)
        name = f"q{len(self.reals)}"
        made = self.w.measured(name, unit=unit, low=low, high=high, step=step)
        self.reals[name], self.units[name], self.quantities[name] = value, factor, made
        return Drawn(made, value)

    def leaf(self) -> Drawn:
        """A quantity with a random value, or one that is there, or a constant of its unit."""
        draw = self.draw
        if self.quantities and draw.random() < 0.3:
            name = draw.choice(list(self.quantities))
            return Drawn(self.quantities[name], self.reals[name])
        value = Fraction(draw.randint(-400, 900), draw.choice([1, 3, 7, 100, 997]))
        is_positive = value > 0 and draw.random() < 0.7
        return self.quantity(value, is_positive=is_positive)

    def term(self, depth: int) -> Drawn:
        """A random term: a length, whatever stands in it."""
        if depth == 0 or self.draw.random() < 0.1:
            return self.leaf_or_constant()
        return self.draw.choice(_MAKERS)(self, depth - 1)

    def leaf_or_constant(self) -> Drawn:
        if self.draw.random() < 0.15:
            number = self.draw.randint(-30, 90) or 1
            return Drawn(Made(real_of(f"{number} inch")), Fraction(number) * UNITS[2][1])
        return self.leaf()


def _scaled(case: Case, depth: int) -> Drawn:
    inner = case.term(depth)
    factor = Fraction(case.draw.randint(-50, 50) or 1, case.draw.choice([1, 3, 10, 981]))
    return Drawn(inner.term * factor, inner.value * factor)


def _sum(case: Case, depth: int) -> Drawn:
    one, other = case.term(depth), case.term(depth)
    if case.draw.random() < 0.5:
        return Drawn(one.term + other.term, one.value + other.value)
    return Drawn(one.term - other.term, one.value - other.value)


def _product(case: Case, depth: int) -> Drawn:
    one, other = case.term(depth), case.term(depth)
    return Drawn(one.term * other.term / "1 m", one.value * other.value)


def _quotient(case: Case, depth: int) -> Drawn:
    above, below = case.term(depth), case.term(depth)
    if not below.value:
        raise Unfit
    return Drawn(above.term / below.term * "1 m", above.value / below.value)


def _inverse(case: Case, depth: int) -> Drawn:
    below = case.term(depth)
    if not below.value:
        raise Unfit
    return Drawn("1 m2" / below.term, 1 / below.value)


def _power(case: Case, depth: int) -> Drawn:
    base, exponent = case.term(depth), case.draw.choice([2, 2, 3, 4])
    return Drawn(base.term**exponent / f"1 m{exponent - 1}", base.value**exponent)


def _root(case: Case, depth: int) -> Drawn:
    """The root of a square, or of squares whose sum is one: (3t)^2 + (4t)^2."""
    if case.draw.random() < 0.5:
        inner = case.term(depth)
        return Drawn((inner.term**2).sqrt(), abs(inner.value))
    size = Fraction(case.draw.randint(1, 300), case.draw.choice([1, 7, 100]))
    first, second, whole = case.draw.choice([(3, 4, 5), (5, 12, 13), (8, 15, 17)])
    legs = case.quantity(first * size), case.quantity(second * size)
    return Drawn((legs[0].term ** 2 + legs[1].term ** 2).sqrt(), whole * size)


def _half_powers(case: Case, depth: int) -> Drawn:
    """Two roots of lengths, or one of a bare number."""
    one, other = (Fraction(case.draw.randint(1, 90), case.draw.choice([1, 7, 10])) for _ in "ab")
    first, second = (case.quantity(it**2, is_positive=True) for it in (one, other))
    if case.draw.random() < 0.5:
        return Drawn(first.term.sqrt() * second.term.sqrt(), one * other)
    inner = case.term(depth)
    return Drawn((first.term / second.term).sqrt() * inner.term, one / other * inner.value)


def _absolute(case: Case, depth: int) -> Drawn:
    inner = case.term(depth)
    return Drawn(abs(inner.term), abs(inner.value))


def _extreme(case: Case, depth: int) -> Drawn:
    several = [case.term(depth) for _ in range(case.draw.randint(2, 3))]
    terms, values = [each.term for each in several], [each.value for each in several]
    if case.draw.random() < 0.5:
        return Drawn(maximum(terms), max(values))
    return Drawn(minimum(terms), min(values))


def _mean(case: Case, depth: int) -> Drawn:
    several = [case.term(depth) for _ in range(case.draw.randint(2, 4))]
    values = [each.value for each in several]
    return Drawn(mean([each.term for each in several]), sum(values, Fraction(0)) / len(values))


_MAKERS: list[Callable[[Case, int], Drawn]] = [
    _scaled,
    _sum,
    _sum,
    _product,
    _product,
    _quotient,
    _inverse,
    _power,
    _root,
    _half_powers,
    _absolute,
    _extreme,
    _mean,
]


def law_of(case: Case, depth: int) -> Law:
    """A law between a term and a quantity that has its value, or between two terms."""
    made = case.term(depth)
    shape = case.draw.random()
    if shape < 0.6:
        case.given.append((f"q{len(case.reals)}", made.term.real))
        return case.quantity(made.value).term == made.term
    other = case.term(max(0, depth - 1))
    if shape < 0.8:
        case.given.append((f"q{len(case.reals)}", (made.term - other.term).real))
        return other.term + case.quantity(made.value - other.value).term == made.term
    if made.value <= other.value:
        return made.term <= other.term
    return made.term >= other.term


def stated_case(w: Workbench, draw: random.Random, count: int = 1) -> Case:
    """A case whose law is stated, or so many. Raises Unfit, and ValueError where a term has no
    bound."""
    case = Case(w, draw)
    for _ in range(count):
        depth = draw.randint(1, 4 if count == 1 else 2)
        _state(case, law_of(case, depth), draw.choice([None, None, "law"]))
    if draw.random() < 0.15:
        case.leaf()
        for _ in range(draw.randint(2, 4)):
            _state(case, shared_law(case), None)
    return case


def _state(case: Case, law: Law, under: str | None) -> None:
    case.w.law(law, under)
    case.laws.append(law)


def shared_law(case: Case) -> Law:
    """A law of two quantities that are there: a sum of products up to squares, as several laws may
    have of them in common."""
    draw, names = case.draw, list(case.quantities)
    free = [name for name in names if name not in dict(case.given)][:2]
    one, other = (Drawn(case.quantities[name], case.reals[name]) for name in (free * 2)[:2])
    parts = [
        (one.term**2 / "1 m", one.value**2, draw.choice([0, 1, 1, 2])),
        (other.term**2 / "1 m", other.value**2, draw.choice([0, 1, 1, 3])),
        (one.term * other.term / "1 m", one.value * other.value, draw.choice([0, 0, 1])),
        (one.term, one.value, draw.randint(-20, 20)),
        (other.term, other.value, draw.randint(-20, 20) or 1),
    ]
    kept = [each for each in parts if each[2]]
    term = total([each * factor for each, _, factor in kept])
    value = sum((it * factor for _, it, factor in kept), Fraction(0))
    case.given.append((f"q{len(case.reals)}", term.real))
    return case.quantity(value).term == term


def redraw(case: Case, *, is_good: bool = True) -> None:
    """Other reals that fit the law, and other errors of devices: where devices are good, as small
    as is said of them. Raises Unfit where what was drawn doesn't fit."""
    reals = {name: _within(case, name) for name in case.reals}
    for name, real in case.given:
        reals[name] = value_of(real, reals)
        measure = case.quantities[name].measure
        if not measure.low <= reals[name] <= measure.high:
            raise Unfit
    for law in case.laws:
        if not law.is_equation and value_of(law.left, reals) > value_of(law.right, reals):
            raise Unfit
    case.reals = reals
    for device in case.devices.values():
        device.redraw(case.draw, is_good=is_good)


def _within(case: Case, name: str) -> Fraction:
    """A real between a quantity's ends: at one, near the one that it has, or any; mostly one that
    few binary digits tell, which is worked with fast."""
    measure, draw = case.quantities[name].measure, case.draw
    shape = draw.random()
    if shape < 0.1:
        return draw.choice([measure.low, measure.high])
    end = draw.choice([measure.low, measure.high])
    begun = measure.low + measure.high - end if shape < 0.3 else case.reals[name]
    share = Fraction(
        draw.randint(0, 1024), 1024 if shape < 0.3 else draw.choice([2**14, 2**20])
    )
    real = begun + (end - begun) * share
    plain = Fraction(round(real * 2**40), 2**40)
    return plain if measure.low <= plain <= measure.high else real


def read_some(case: Case) -> None:
    """Reads some quantities, some by devices: what is read holds."""
    draw = case.draw
    for name, quantity in case.quantities.items():
        if draw.random() < 0.6:
            number = case.reals[name] / case.units[name]
            by = device_for(case.w, draw, case.devices, quantity, abs(number) / 10)
            shown = number if by is None else by.shows(case.reals[name]) / case.units[name]
            width = abs(number) * Fraction(draw.choice([0, 1, 5, 100]), 1000)
            below, above = (width * Fraction(draw.randint(0, 10), 10) for _ in range(2))
            given = (shown - below, shown + above)
            case.w.read(f"read {name}", quantity, given, by=None if by is None else by.device)


def lost(case: Case, *, is_shaved: bool = False) -> list[str]:
    """The quantities whose real does not lie in their answer."""
    return [each for it in case.quantities for each in lost_of(case, it, is_shaved=is_shaved)]


def lost_of(case: Case, name: str, *, is_shaved: bool = False) -> list[str]:
    """The same of one quantity."""
    quantity = case.quantities[name]
    answer = case.w.shave(quantity, seconds=2) if is_shaved else quantity.ask(seconds=2)
    if answer.low is None or answer.high is None:
        return []
    return beyond(case, name, Fraction(answer.low), Fraction(answer.high))


def beyond(case: Case, name: str, low: Fraction, high: Fraction) -> list[str]:
    """That a quantity's real lies beyond two ends in its unit."""
    number = case.reals[name] / case.units[name]
    return [] if low <= number <= high else [f"{name} = {number} is not in {low}..{high}"]


def numbers(case: Case) -> dict[Declared, int]:
    """What each cell holds for its real. Raises Unfit for a root that is no fraction."""
    reals = reals_of_devices(case.w, case.devices, case.reals)
    for event in case.w._network.events:
        if isinstance(event, RootMade):
            reals[event.cell] = value_of(event.root, case.reals)
    for name, quantity in case.quantities.items():
        reals[quantity.declared] = case.reals[name]
    return {cell: cell.measure.count(real) for cell, real in reals.items() if cell.measure}


def unmet(case: Case, *, is_read: bool = True) -> list[str]:
    """What is stated that does not hold where each cell holds what it does for its real, with what
    `is_read` or without: worked out in whole numbers, without the program. Raises Unfit for a root
    that is no fraction."""
    points = numbers(case)
    sorts: tuple[type[Required], ...] | tuple[type[Required], type[Told]]
    sorts = (Required, Told) if is_read else (Required,)
    events = [it for it in case.w._network.events if isinstance(it, sorts)]
    return [it.text for it in events if not it.is_met(points)]


def value_of(real: Real, reals: dict[str, Fraction]) -> Fraction:
    """What a term is, in base units. Raises Unfit for a root that is no fraction."""
    if real.sort is RealSort.QUANTITY:
        return reals[real.quantity.name]
    if real.sort is RealSort.CONSTANT:
        return real.number
    values = [value_of(arg, reals) for arg in real.args]
    if real.sort is RealSort.POWER:
        return values[0] ** int(real.number)
    if real.sort is RealSort.ROOT:
        return root_of(values[0])
    return _VALUES[real.sort](values)


def root_of(number: Fraction) -> Fraction:
    """The root, where it is a fraction."""
    if number < 0:
        raise Unfit
    found = Fraction(isqrt(number.numerator), isqrt(number.denominator))
    if found * found != number:
        raise Unfit
    return found


def _quotient_of(values: list[Fraction]) -> Fraction:
    if not values[1]:
        raise Unfit
    return values[0] / values[1]


_VALUES: dict[RealSort, Callable[[list[Fraction]], Fraction]] = {
    RealSort.SUM: lambda values: sum(values, Fraction(0)),
    RealSort.DIFFERENCE: lambda values: values[0] - values[1],
    RealSort.NEGATIVE: lambda values: -values[0],
    RealSort.PRODUCT: lambda values: values[0] * values[1],
    RealSort.QUOTIENT: _quotient_of,
    RealSort.ABSOLUTE: lambda values: abs(values[0]),
    RealSort.GREATEST: max,
    RealSort.LEAST: min,
    RealSort.MEAN: lambda values: sum(values, Fraction(0)) / len(values),
}
