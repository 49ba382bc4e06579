"""Random laws with functions over random reals that fit them, worked out by intervals of 60 digits.

What a term is, is worked out here by mpmath's intervals, and not by the curves of the package: a
real is drawn as a fraction, and what a law gives is an interval that holds it. It is lost where all
of the interval lies beyond an answer.
"""

import random
from collections.abc import Callable
from dataclasses import dataclass, field, replace
from fractions import Fraction

from propbench import Workbench, maximum, mean, minimum
from propbench.measuring import elementary
from propbench.measuring.bounds import BoundsOf
from propbench.measuring.curves import Segments, Wave
from propbench.measuring.quantities import Quantity
from propbench.measuring.shapes import FunctionName, shape_of
from propbench.measuring.stating import RootMade
from propbench.measuring.terms import Law, Real, RealSort, Term
from propbench.model.events import Required, Told
from propbench.model.nodes import Declared
from real_devices import Drawn, device_for, reals_of_devices
from real_intervals import (
    Number,
    Unsure,
    applied,
    count_of,
    ends_of,
    on_branch,
    on_lines,
    powered,
    worked_out,
)

STEPS = [None, Fraction(1, 10), Fraction(1, 1000), Fraction(1, 10**5), Fraction(1, 10**8)]
# Units of temperatures, and between what they are drawn there.
_TEMPERATURES = {"K": (250, 420), "degC": (-20, 140), "degF": (0, 280)}


class Unfit(Exception):
    """What was drawn is no case."""


@dataclass
class Case:
    """A workbench with laws, and the reals of its quantities by name."""

    w: Workbench
    draw: random.Random
    quantities: dict[str, Quantity] = field(default_factory=dict)
    reals: dict[str, Number] = field(default_factory=dict)
    # The quantities that laws give, in order, and what they give for each.
    given: list[tuple[str, Real]] = field(default_factory=list)
    laws: list[Law] = field(default_factory=list)
    # By how much of what it may be a table is off, for what it is taken of.
    off: dict[Real, Fraction] = field(default_factory=dict)
    # What quantities that stand for terms in laws are, by name.
    roots: dict[str, Real] = field(default_factory=dict)
    devices: dict[str, Drawn] = field(default_factory=dict)
    # What parts of terms are, for the reals as they are now.
    found: dict[int, Number] = field(default_factory=dict)

    def quantity(self, low: Fraction, high: Fraction, unit: str = "1") -> Quantity:
        """A quantity between two ends."""
        name = f"q{len(self.quantities)}"
        step = self.draw.choice(STEPS)
        try:
            made = self.w.measured(name, unit=unit, low=low, high=high, step=step)
        except ValueError:
            raise Unfit from None
        self.quantities[name] = made
        return made

    def leaf(self) -> Term:
        """A bare quantity between random ends, or one that is there."""
        draw, there = self.draw, [it for it in self.quantities.values() if it.unit.text == "1"]
        if there and draw.random() < 0.3:
            return draw.choice(there)
        low = Fraction(draw.randint(-500, 500), draw.choice([1, 7, 100]))
        return self.quantity(low, low + Fraction(draw.randint(1, 900), draw.choice([1, 10, 100])))

    def term(self, depth: int) -> Term:
        """A random bare term."""
        if depth == 0:
            return self.leaf()
        return self.draw.choice(_MAKERS)(self, depth - 1)

    def within(self, low: float | Fraction, high: float | Fraction, depth: int) -> Term:
        """A bare term that surely lies between these: a quantity, or a term that is moved there."""
        first, last = Fraction(low), Fraction(high)
        if depth == 0 or self.draw.random() < 0.5:
            ends = sorted(self.draw.sample(range(65), 2)) if self.draw.random() < 0.7 else [0, 64]
            low, high = (first + (last - first) * end / 64 for end in ends)
            return self.quantity(low, high)
        term = self.term(depth)
        begun, ended = BoundsOf()(term.real)
        if begun == ended:
            raise Unfit
        shift, factor = _plain((begun + ended) / 2), _plain(
            (last - first) / (ended - begun) * Fraction(9, 10)
        )
        return (term - shift) * factor + (first + last) / 2


def _plain(number: Fraction) -> Fraction:
    """About this number, as one with few digits."""
    return Fraction(f"{float(number):.6g}")


def _sum(case: Case, depth: int) -> Term:
    one, other = case.term(depth), case.term(depth)
    return one + other if case.draw.random() < 0.5 else one - other


def _product(case: Case, depth: int) -> Term:
    return case.term(depth) * case.term(depth)


def _several(case: Case, depth: int) -> Term:
    terms = [case.term(depth) for _ in range(case.draw.randint(2, 3))]
    return case.draw.choice([maximum, minimum, mean])(terms)


def _pi(case: Case, depth: int) -> Term:
    term = case.term(depth)
    return term * elementary.pi if case.draw.random() < 0.5 else term - elementary.pi


def _exponential(case: Case, depth: int) -> Term:
    function = case.draw.choice([elementary.exp, elementary.exp10])
    most = 6 if function is elementary.exp else 3
    return function(case.within(-most, most, depth))


def _level(case: Case, depth: int) -> Term:
    """Decibels of a ratio, of a power or of a voltage, and back."""
    of = case.draw.choice(["1", "W", "V"])
    if case.draw.random() < 0.5:
        found = elementary.at_level(case.within(-30, 40, depth) * "1 dB", of)
        return found if of == "1" else found / f"1 {of}"
    inner = case.within(0.001, 50, depth)
    return elementary.level(inner if of == "1" else inner * f"1 {of}") / "1 dB"


def _acid(case: Case, depth: int) -> Term:
    """A pH, and back."""
    if case.draw.random() < 0.5:
        return elementary.at_pH(case.within(0, 4, depth) * "1 pH") / "1 mol/L"
    return elementary.pH(case.within(0.00001, 2, depth) * "1 mol/L") / "1 pH"


def _temperature(case: Case, depth: int) -> Term:
    """A temperature in some scale, within an exponential of a thermistor or by itself."""
    unit = case.draw.choice(list(_TEMPERATURES))
    low, high = _TEMPERATURES[unit]
    ends = sorted(case.draw.sample(range(low, high), 2))
    kelvins = case.quantity(Fraction(ends[0]), Fraction(ends[1]), unit) / "1 K"
    if case.draw.random() < 0.3:
        return kelvins / 10
    return elementary.exp(3950 / kelvins - Fraction("13.25"))


def _logarithm(case: Case, depth: int) -> Term:
    low, high = case.draw.choice([(0.001, 10), (1, 1000), (0.5, 2), (0.9, 1.1)])
    function = case.draw.choice([elementary.ln, elementary.log10])
    return function(case.within(low, high, depth))


def _angle(case: Case, depth: int, low: float, high: float) -> Term:
    """An angle between so many degrees: in degrees, in gons or in radians, or the one as
    another."""
    shape = case.draw.random()
    if shape < 0.4:
        return case.within(low, high, depth) * "1 deg"
    if shape < 0.5:
        return case.within(low / 0.9, high / 0.9, depth) * "1 gon"
    if shape < 0.6:
        return elementary.radians(case.within(low, high, depth) * "1 deg")
    inner = case.within(low / 57.3, high / 57.3, depth)
    return elementary.degrees(inner) if shape < 0.7 else inner


def _wave(case: Case, depth: int) -> Term:
    function = case.draw.choice([elementary.sin, elementary.cos])
    ends = case.draw.choice([(0, 90), (-90, 90), (0, 180), (-400, 400), (10, 20), (80, 100)])
    return function(_angle(case, depth, *ends))


def _tangent(case: Case, depth: int) -> Term:
    low, high = case.draw.choice([(-80, 80), (0, 45), (91, 260), (-5, 5)])
    return elementary.tan(_angle(case, depth, low, high))


def _arc(case: Case, depth: int) -> Term:
    function = case.draw.choice([elementary.asin, elementary.acos, elementary.atan])
    size = 1 if function is not elementary.atan else case.draw.choice([0.5, 1, 20])
    found = function(case.within(-size, size, depth))
    return found if case.draw.random() < 0.5 else elementary.degrees(found) / "1 deg"


def _around(case: Case, depth: int) -> Term:
    below, above = (0.1, 5) if case.draw.random() < 0.5 else (-5, -0.1)
    side, other = case.within(-3, 5, depth), case.within(below, above, depth)
    return elementary.atan2(*((other, side) if below < 0 or depth else (side, other)))


def _hypot(case: Case, depth: int) -> Term:
    sides = [case.within(-3, 5, depth) for _ in range(case.draw.randint(1, 2))]
    return elementary.hypot(case.within(0, 4, depth), *sides)


def _root(case: Case, depth: int) -> Term:
    inner = case.within(0, 30, depth)
    return inner.sqrt() if case.draw.random() < 0.7 else abs(inner - 9)


def _power(case: Case, depth: int) -> Term:
    exponent = Fraction(
        case.draw.choice([1, 2, 3, 4, 5, 7, -1, -3]), case.draw.choice([3, 5, 2, 7])
    )
    return case.within(0.01 if exponent < 0 else 0, 40, depth) ** exponent


def _curve(case: Case, depth: int) -> Term:
    draw, count = case.draw, case.draw.randint(2, 6)
    arguments = [Fraction(each, 4) for each in sorted(draw.sample(range(0, 60), count))]
    values = [Fraction(draw.randint(-40, 40), 8) for _ in arguments]
    if draw.random() < 0.6:
        values.sort(reverse=draw.random() < 0.5)
    within = draw.choice(["0", "0", "0.01", "0.5"])
    made = elementary.curve(f"t{draw.random()}", list(zip(arguments, values)), within=within)
    return made(case.within(arguments[0], arguments[-1], depth))


_MAKERS: list[Callable[[Case, int], Term]] = [
    _sum,
    _product,
    _several,
    _pi,
    *[_exponential, _logarithm, _wave, _tangent, _arc, _power, _curve] * 2,
    _level,
    _acid,
    _temperature,
    _around,
    _hypot,
    _root,
]


def stated_case(w: Workbench, draw: random.Random, count: int | None = None) -> Case:
    """A case with a law or two that are stated, or so many. Raises Unfit, and ValueError for a law
    that can't be told."""
    case = Case(w, draw)
    for _ in range(count or draw.choice([1, 1, 1, 2])):
        term = draw.choice(_MAKERS[4:])(case, draw.choice([0, 0, 0, 1, 1, 2]))
        low, high = BoundsOf()(term.real)
        room = max(high - low, Fraction(1, 10))
        share = Fraction(draw.choice([0, 1, 20]), 10)
        name, real = f"q{len(case.quantities)}", term.real
        law = case.quantity(_plain(low - room * share) - 1, _plain(high + room * share) + 1) == term
        case.given.append((name, real))
        w.law(law, draw.choice([None, None, "law"]))
        case.laws.append(law)
    redraw(case)
    return case


def redraw(case: Case, *, is_good: bool = True) -> None:
    """Other reals that fit the laws, and other errors of devices: where devices are good, as small
    as is said of them. Raises Unfit."""
    given = dict(case.given)
    case.reals = {}
    case.off.clear()
    case.found.clear()
    for name, quantity in case.quantities.items():
        measure = quantity.measure
        if name in given:
            case.reals[name] = value_of(case, given[name])
            low, high = ends_of(case.reals[name])
            if not measure.low <= low <= high <= measure.high:
                raise Unfit
        else:
            case.reals[name] = _within(case.draw, quantity)
    for device in case.devices.values():
        device.redraw(case.draw, is_good=is_good)


def _within(draw: random.Random, quantity: Quantity) -> Fraction:
    """A real between a quantity's ends: at one, near one, or any."""
    low, high = quantity.measure.low, quantity.measure.high
    shape = draw.random()
    if shape < 0.15:
        return draw.choice([low, high])
    share = Fraction(draw.getrandbits(60), 2**60)
    if shape < 0.3:
        share **= draw.choice([3, 9])
    return low + (high - low) * (share if draw.random() < 0.5 else 1 - share)


def read_some(case: Case) -> None:
    """Reads some quantities, some by devices: what is read holds."""
    draw = case.draw
    for name, quantity in case.quantities.items():
        if draw.random() < 0.6:
            measure, real = quantity.measure, case.reals[name]
            width = (measure.high - measure.low) * Fraction(draw.choice([0, 1, 20, 200]), 1000)
            room = (measure.high - measure.low) / measure.factor / 10
            by = device_for(case.w, draw, case.devices, quantity, room)
            below, above = (width * Fraction(draw.randint(0, 10), 10) for _ in range(2))
            low, high = ends_of(real if by is None else by.shows(real))
            ends = (low - below - measure.offset, high + above - measure.offset)
            given = (ends[0] / measure.factor, ends[1] / measure.factor)
            case.w.read(f"read {name}", quantity, given, by=None if by is None else by.device)


def lost(case: Case, *, is_shaved: bool = False) -> list[str]:
    """The quantities whose real does not lie in their answer."""
    return [each for it in case.quantities for each in lost_of(case, it, is_shaved=is_shaved)]


def lost_of(case: Case, name: str, *, is_shaved: bool = False) -> list[str]:
    """The same of one quantity."""
    quantity = case.quantities[name]
    answer = case.w.shave(quantity, seconds=20) if is_shaved else quantity.ask(seconds=20)
    if answer.low is None or answer.high is None:
        return []
    return beyond(case, name, Fraction(answer.low), Fraction(answer.high))


def beyond(case: Case, name: str, low: Fraction, high: Fraction) -> list[str]:
    """That a quantity's real surely lies beyond two ends in its unit."""
    measure = case.quantities[name].measure
    ends = ends_of(case.reals[name])
    least, most = (low * measure.factor + measure.offset, high * measure.factor + measure.offset)
    if least <= ends[1] and ends[0] <= most:
        return []
    return [f"{name} = {float(ends[0])} is not in {low}..{high}"]


def numbers(case: Case) -> dict[Declared, int]:
    """What each cell holds for its real. Raises Unfit where that is not sure."""
    reals: dict[Declared, Number] = reals_of_devices(case.w, case.devices, case.reals)
    for event in case.w._network.events:
        if isinstance(event, RootMade):
            case.roots[event.cell.name] = event.root
            reals[event.cell] = quantity_of(case, event.cell.name)
    for name, quantity in case.quantities.items():
        reals[quantity.declared] = case.reals[name]
    try:
        measures = {cell: cell.measure for cell in reals}
        return {cell: count_of(it, reals[cell]) for cell, it in measures.items() if it}
    except Unsure:
        raise Unfit from None


def unmet(case: Case, *, is_read: bool = True) -> list[str]:
    """What is stated that does not hold where each cell holds what it does for its real, with what
    `is_read` or without: worked out in whole numbers, without the program. Raises Unfit."""
    points = numbers(case)
    sorts: tuple[type[Required], ...] | tuple[type[Required], type[Told]]
    sorts = (Required, Told) if is_read else (Required,)
    events = [it for it in case.w._network.events if isinstance(it, sorts)]
    return [it.text for it in events if not it.is_met(points)]


def quantity_of(case: Case, name: str) -> Number:
    """What a quantity is, or one that stands for a term."""
    if name not in case.reals:
        case.reals[name] = value_of(case, case.roots[name])
    return case.reals[name]


def value_of(case: Case, real: Real) -> Number:
    """What a term is, in base units."""
    if real.sort is RealSort.QUANTITY:
        return quantity_of(case, real.quantity.name)
    if real.sort is RealSort.CONSTANT:
        return real.number
    found = case.found.get(id(real))
    if found is None:
        found = case.found[id(real)] = _value_of(case, real)
    return found


def _value_of(case: Case, real: Real) -> Number:
    values = [value_of(case, arg) for arg in real.args]
    if real.sort is RealSort.FUNCTION:
        return _applied(case, real, values[0])
    if real.sort is RealSort.POWER:
        return powered(values[0], real.number)
    return worked_out(real.sort, values)


def _applied(case: Case, real: Real, value: Number) -> Number:
    """A function of a value; of a curve that is one of several, beyond its ends as there."""
    function = real.applied
    if function.name is FunctionName.TABLE:
        return _looked_up(case, real, value)
    if function.branch is None:
        return applied(function, value)
    whole = replace(function, branch=None)
    curve = shape_of(whole, BoundsOf()(real.args[0])).curves[function.branch]
    assert isinstance(curve, Wave)
    return applied(whole, on_branch(value, function, curve.branch))


def _looked_up(case: Case, real: Real, value: Number) -> Number:
    """What a table has, as far off as was drawn: what that is once, it is again."""
    table, branch = real.applied.table, real.applied.branch
    assert table is not None
    points = table.points
    whole = replace(real, function=replace(real.applied, branch=None))
    if branch is not None:
        curve = shape_of(whole.applied, BoundsOf()(real.args[0])).curves[branch]
        assert isinstance(curve, Segments)
        points = curve.points
    found = on_lines(points, value)
    if branch:
        return found
    if whole not in case.off:
        case.off[whole] = Fraction(case.draw.choice([-8, 8, case.draw.randint(-8, 8)]), 8)
    return worked_out(RealSort.SUM, [found, table.off * case.off[whole]])
