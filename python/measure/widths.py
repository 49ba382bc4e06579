#!/usr/bin/python3
"""How wide answers are, beside the narrowest that there can be: formulas of laboratories.

usage: measure/widths.py [--seconds S] [CASE ..]

Of each case all is read but one quantity, which is asked for by `ask`, and by `shave` within so
many seconds. `best` is the width of all that the readings leave for it: its formula, solved by
hand, is bounded by intervals of floats over ever smaller boxes, until what is seen at points and
what boxes leave differ by less than a thousandth of the width. Both widths are told as parts of
that.
"""

import argparse
import heapq
import math
import statistics
import sys
import time
from collections.abc import Callable, Mapping, Sequence
from dataclasses import dataclass
from pathlib import Path
from typing import Any

sys.path.insert(0, str(Path(__file__).resolve().parents[1] / "src"))

import propbench as p
from propbench import Workbench
from propbench.measuring.quantities import MeasuredAnswer, Quantity
from propbench.measuring.terms import Law
from propbench.tables import table

HEADS = ("case", "best", "ask", "shave", "seconds")
# Boxes are cut until what is seen and what is left differ by this part of the width, or so often.
_NEAR, _CUTS = 1e-3, 60_000


@dataclass(frozen=True)
class Read:
    """A quantity: its unit, its ends, and what is read of it, in its unit; how many of the unit in
    which a formula has it are one of these, and where their zero is there."""

    unit: str
    ends: tuple[float, float]
    read: tuple[float, float]
    factor: float = 1
    zero: float = 0

    @property
    def box(self) -> tuple[float, float]:
        """What is read, as a formula has it."""
        low, high = (each * self.factor + self.zero for each in self.read)
        return low, high


@dataclass(frozen=True)
class Wanted:
    """The quantity that is asked for: its unit and ends, and how many of the unit in which a
    formula gives it are one of these."""

    unit: str
    ends: tuple[float, float]
    factor: float = 1


@dataclass(frozen=True)
class Case:
    """What is read, what is wanted, the laws as a user writes them, the wanted one first, and the
    formula of it."""

    name: str
    read: Mapping[str, Read]
    wanted: Wanted
    laws: Callable[..., "Law | list[Law]"]
    formula: Callable[..., Any]


def around(unit: str, middle: float, off: float, factor: float = 1) -> Read:
    """What is read with a tolerance, of a quantity that may be a third as much or thrice."""
    ends = (middle / 3, middle * 3) if middle > 0 else (middle - 3, middle + 3)
    return Read(unit, ends, (middle - off, middle + off), factor)


class Span:
    """An interval of floats, and the operations of formulas: somewhat too wide, never too narrow by
    more than rounding."""

    def __init__(self, low: float, high: float) -> None:
        self.low, self.high = low, high

    @staticmethod
    def of(value: "Span | float") -> "Span":
        """A number as an interval."""
        return value if isinstance(value, Span) else Span(value, value)

    def __add__(self, other: "Span | float") -> "Span":
        it = Span.of(other)
        return Span(self.low + it.low, self.high + it.high)

    def __neg__(self) -> "Span":
        return Span(-self.high, -self.low)

    def __sub__(self, other: "Span | float") -> "Span":
        return self + -Span.of(other)

    def __rsub__(self, other: float) -> "Span":
        return Span.of(other) - self

    def __mul__(self, other: "Span | float") -> "Span":
        it = Span.of(other)
        ends = [one * two for one in (self.low, self.high) for two in (it.low, it.high)]
        return Span(min(ends), max(ends))

    def __truediv__(self, other: "Span | float") -> "Span":
        it = Span.of(other)
        if it.low <= 0 <= it.high:
            return Span(-math.inf, math.inf)
        return self * Span(1 / it.high, 1 / it.low)

    def __rtruediv__(self, other: float) -> "Span":
        return Span.of(other) / self

    def __pow__(self, power: float) -> "Span":
        if power == 2:
            ends = [abs(self.low), abs(self.high)]
            least = 0.0 if self.low <= 0 <= self.high else min(ends)
            return Span(least**2, max(ends) ** 2)
        return Span(max(self.low, 0.0) ** power, max(self.high, 0.0) ** power)

    __radd__, __rmul__ = __add__, __mul__


def rising(function: Callable[[float], float]) -> Callable[[Any], Any]:
    """A function that rises, of numbers and of intervals."""

    def of(value: Any) -> Any:
        if isinstance(value, Span):
            return Span(function(value.low), function(value.high))
        return function(value)

    return of


exp, ln, tan, asin, atan = (
    rising(each) for each in (math.exp, math.log, math.tan, math.asin, math.atan)
)
log10 = rising(math.log10)


def sin(value: Any) -> Any:
    """A sine, of numbers and of intervals."""
    if not isinstance(value, Span):
        return math.sin(value)
    ends = [math.sin(value.low), math.sin(value.high)]
    tops = [math.floor((value.high / math.pi - at) / 2) * 2 + at for at in (0.5, 1.5)]
    is_in = [top * math.pi >= value.low for top in tops]
    return Span(-1.0 if is_in[1] else min(ends), 1.0 if is_in[0] else max(ends))


def cos(value: Any) -> Any:
    """A cosine, of numbers and of intervals."""
    return sin(value + math.pi / 2)


def best(formula: Callable[..., Any], boxes: Sequence[tuple[float, float]]) -> tuple[float, float]:
    """The least and the greatest value of a formula over a box, to a thousandth of their distance:
    each end by cutting the box in halves where most may be left."""
    corners = [[]]  # type: list[list[float]]
    for low, high in boxes:
        corners = [[*corner, end] for corner in corners for end in (low, (low + high) / 2, high)]
    seen = [formula(*corner) for corner in corners]
    low, high = min(seen), max(seen)
    return -_most(lambda *box: -formula(*box), boxes, -low, high - low), _most(
        formula, boxes, high, high - low
    )


def _most(
    formula: Callable[..., Any], boxes: Sequence[tuple[float, float]], seen: float, width: float
) -> float:
    """A number that the greatest value is hardly less than, and no more."""
    left = [(-Span.of(formula(*(Span(*box) for box in boxes))).high, 0, tuple(boxes))]
    for count in range(1, _CUTS):
        most, _, box = left[0]
        if -most <= seen + _NEAR * width:
            break
        heapq.heappop(left)
        sides = [
            abs(_slope(formula, box, place)) * (high - low) for place, (low, high) in enumerate(box)
        ]
        place = sides.index(max(sides))
        low, high = box[place]
        for number, part in enumerate(((low, (low + high) / 2), ((low + high) / 2, high))):
            inner = (*box[:place], part, *box[place + 1 :])
            seen = max(seen, formula(*(sum(each) / 2 for each in inner)))
            found = Span.of(formula(*(Span(*each) for each in inner)))
            heapq.heappush(left, (-found.high, 2 * count + number, inner))
    return seen


def _slope(formula: Callable[..., Any], box: Sequence[tuple[float, float]], place: int) -> float:
    """How much a formula changes along a side of a box, by what is left where the others are at
    their middles."""
    low, high = box[place]
    at = [Span(*each) if place == it else sum(each) / 2 for it, each in enumerate(box)]
    found = Span.of(formula(*at))
    width = found.high - found.low
    return 1e300 if not math.isfinite(width) else (width + 1e-300) / ((high - low) or 1)


DEG = math.pi / 180
CASES = [
    Case(
        "mass / volume",
        {"m": around("g", 100, 0.2), "v": around("cm3", 7, 0.1)},
        Wanted("g/cm3", (1, 30)),
        lambda d, m, v: d == m / v,
        lambda m, v: m / v,
    ),
    Case(
        "two in parallel",
        {"a": around("ohm", 468, 1.2), "b": around("ohm", 330, 3.3)},
        Wanted("ohm", (1, 1000)),
        lambda r, a, b: r == 1 / (1 / a + 1 / b),
        lambda a, b: 1 / (1 / a + 1 / b),
    ),
    Case(
        "two in parallel, as a b / (a + b)",
        {"a": around("ohm", 468, 1.2), "b": around("ohm", 330, 3.3)},
        Wanted("ohm", (1, 1000)),
        lambda r, a, b: r == a * b / (a + b),
        lambda a, b: 1 / (1 / a + 1 / b),
    ),
    Case(
        "a fall of 3 s",
        {"g": around("m/s2", 9.81, 0.02), "t": around("s", 3, 0.1)},
        Wanted("m", (1, 1000)),
        lambda s, g, t: s == g * t**2 / 2,
        lambda g, t: g * t**2 / 2,
    ),
    Case(
        "a diagonal",
        {"a": around("m", 3, 0.1), "b": around("m", 4, 0.1)},
        Wanted("m", (0, 100)),
        lambda d, a, b: d == p.hypot(a, b),
        lambda a, b: (a**2 + b**2) ** 0.5,
    ),
    Case(
        "a square near 0",
        {"x": Read("1", (-10, 10), (-0.4, 0.6))},
        Wanted("1", (-10, 1000)),
        lambda y, x: y == x**2,
        lambda x: x**2,
    ),
    Case(
        "x / (1 + x)",
        {"x": around("1", 2, 0.2)},
        Wanted("1", (0, 1)),
        lambda y, x: y == x / (1 + x),
        lambda x: 1 / (1 + 1 / x),
    ),
    Case(
        "x**2 - x, past its turn",
        {"x": Read("1", (-5, 5), (0.4, 0.9))},
        Wanted("1", (-100, 100)),
        lambda y, x: y == x**2 - x,
        lambda x: (x - 0.5) ** 2 - 0.25,
    ),
    Case(
        "Wheatstone's bridge",
        {"a": around("ohm", 100, 0.1), "b": around("ohm", 1000, 1), "c": around("ohm", 47, 0.05)},
        Wanted("ohm", (1, 5000)),
        lambda r, a, b, c: r * a == b * c,
        lambda a, b, c: b * c / a,
    ),
    Case(
        "a bridge and its temperature",
        {
            "a": around("ohm", 100, 0.1),
            "b": around("ohm", 1000, 1),
            "c": around("ohm", 47, 0.05),
            "k": around("ppm/degC", 3930, 50, 1e-6),
            "t": Read("degC", (0, 50), (24.5, 25.5), 1, 273.15),
        },
        Wanted("ohm", (1, 5000)),
        lambda r, a, b, c, k, t: r * (1 + k * (t - "20 degC")) == b * c / a,
        lambda a, b, c, k, t: b * c / a / (1 + k * (t - 293.15)),
    ),
    Case(
        "a bridge out of balance",
        {
            "s": around("V", 5, 0.01),
            "a": around("ohm", 1000, 1),
            "b": around("ohm", 1000, 1),
            "c": around("ohm", 1000, 1),
            "v": Read("V", (-2, 2), (0.099, 0.101)),
        },
        Wanted("ohm", (100, 5000)),
        lambda r, s, a, b, c, v: v == s * (c / (c + r) - b / (a + b)),
        lambda s, a, b, c, v: c * (1 / (v / s + 1 / (a / b + 1)) - 1),
    ),
    Case(
        "a gauge block",
        {
            "s": Read("mm", (49, 51), (50.000593, 50.000653)),
            "d": Read("nm", (-1000, 1000), (185, 245), 1e-6),
            "e": Read("1/K", (0, 3e-5), (1.05e-5, 1.25e-5)),
            "q": Read("1/K", (-1e-5, 1e-5), (-1e-6, 1e-6)),
            "t": Read("K", (-5, 5), (-0.6, 0.4)),
            "u": Read("K", (-1, 1), (-0.05, 0.05)),
        },
        Wanted("mm", (49, 51)),
        lambda l, s, d, e, q, t, u: l == s + d - s * (q * t + e * u),
        lambda s, d, e, q, t, u: s * (1 - q * t - e * u) + d,
    ),
    Case(
        "titration",
        {
            "c": around("mol/L", 0.1, 0.0002),
            "v": around("mL", 24.35, 0.04),
            "a": around("mL", 25, 0.03),
        },
        Wanted("mol/L", (0.001, 1)),
        lambda x, c, v, a: x * a == c * v,
        lambda c, v, a: c * v / a,
    ),
    Case(
        "a standard solution",
        {
            "m": around("mg", 100.28, 0.05),
            "p": around("1", 0.9999, 0.0001),
            "v": around("mL", 100, 0.1),
            "t": Read("K", (-10, 10), (-4, 4)),
        },
        Wanted("mg/L", (10, 10000)),
        lambda c, m, p, v, t: c == m * p / (v * (1 + t * "2.1e-4 1/K")),
        lambda m, p, v, t: m * p / (v * (1 + t * 2.1e-4)) * 1000,
    ),
    Case(
        "a traverse",
        {
            "a": Read("deg", (0, 90), (34.99, 35.01), DEG),
            "s": around("m", 120, 0.01),
            "b": Read("deg", (90, 180), (110.99, 111.01), DEG),
            "u": around("m", 85, 0.01),
        },
        Wanted("m", (-500, 500)),
        lambda x, a, s, b, u: x == s * p.cos(a) + u * p.cos(b),
        lambda a, s, b, u: s * cos(a) + u * cos(b),
    ),
    Case(
        "a traverse by angles that it turns",
        {
            "a": Read("deg", (0, 90), (34.99, 35.01), DEG),
            "s": around("m", 120, 0.01),
            "b": Read("deg", (0, 90), (75.99, 76.01), DEG),
            "u": around("m", 85, 0.01),
        },
        Wanted("m", (-500, 500)),
        lambda y, a, s, b, u: y == s * p.sin(a) + u * p.sin(a + b),
        lambda a, s, b, u: s * sin(a) + u * sin(a + b),
    ),
    Case(
        "a lens",
        {"a": around("mm", 300, 2), "b": around("mm", 150, 2)},
        Wanted("mm", (10, 1000)),
        lambda f, a, b: 1 / f == 1 / a + 1 / b,
        lambda a, b: 1 / (1 / a + 1 / b),
    ),
    Case(
        "a lens, for the image",
        {"f": around("mm", 100, 1), "a": around("mm", 300, 2)},
        Wanted("mm", (10, 1000)),
        lambda b, f, a: 1 / f == 1 / a + 1 / b,
        lambda f, a: 1 / (1 / f - 1 / a),
    ),
    Case(
        "a thermistor",
        {"r": around("ohm", 5000, 10), "b": around("K", 3950, 20)},
        Wanted("K", (250, 400)),
        lambda t, r, b: r == "10 kohm" * p.exp(b / t - b / "298.15 K"),
        lambda r, b: 1 / (1 / 298.15 + ln(r / 10_000) / b),
    ),
    Case(
        "a thermistor's constant",
        {
            "r": around("ohm", 10000, 20),
            "s": around("ohm", 3600, 10),
            "t": Read("degC", (0, 100), (24.95, 25.05), 1, 273.15),
            "u": Read("degC", (0, 100), (49.95, 50.05), 1, 273.15),
        },
        Wanted("K", (1000, 6000)),
        lambda b, r, s, t, u: p.ln(r / s) == b * (1 / t - 1 / u),
        lambda r, s, t, u: ln(r / s) / (1 / t - 1 / u),
    ),
    Case(
        "a platinum thermometer",
        {"r": around("ohm", 119.4, 0.02), "z": around("ohm", 100, 0.01)},
        Wanted("1", (-50, 200)),
        lambda t, r, z: r == z * (1 + "3.9083e-3" * t - "5.775e-7" * t**2),
        lambda r, z: (3.9083e-3 - (3.9083e-3**2 - 4 * 5.775e-7 * (r / z - 1)) ** 0.5)
        / (2 * 5.775e-7),
    ),
    Case(
        "a pendulum",
        {"l": around("m", 0.993, 0.001), "t": around("s", 2, 0.002)},
        Wanted("m/s2", (1, 30)),
        lambda g, l, t: t == 2 * p.pi * (l / g).sqrt(),
        lambda l, t: 4 * math.pi**2 * l / t**2,
    ),
    Case(
        "refraction",
        {
            "a": Read("deg", (0, 90), (44.9, 45.1), DEG),
            "b": Read("deg", (1, 90), (27.9, 28.1), DEG),
        },
        Wanted("1", (1, 3)),
        lambda n, a, b: p.sin(a) == n * p.sin(b),
        lambda a, b: sin(a) / sin(b),
    ),
    Case(
        "Young's modulus of a beam",
        {
            "f": around("N", 10, 0.02),
            "l": around("mm", 300, 0.5),
            "b": around("mm", 20, 0.02),
            "h": around("mm", 3, 0.01),
            "d": around("mm", 0.6, 0.005),
        },
        Wanted("GPa", (10, 1000)),
        lambda e, f, l, b, h, d: e == f * l**3 / (4 * b * h**3 * d),
        lambda f, l, b, h, d: f * l**3 / (b * h**3 * d) / 4000,
    ),
    Case(
        "a buffer",
        {
            "k": around("1", 4.756, 0.005),
            "a": around("mol/L", 0.1, 0.001),
            "b": around("mol/L", 0.05, 0.001),
        },
        Wanted("1", (0, 14)),
        lambda h, k, a, b: h == k + p.log10(a / b),
        lambda k, a, b: k + log10(a / b),
    ),
    Case(
        "an absorbance",
        {
            "i": around("1", 0.35, 0.002),
            "e": around("L/mol/cm", 6220, 60),
            "l": around("cm", 1, 0.005),
        },
        Wanted("mmol/L", (0.001, 1)),
        lambda c, i, e, l: e * c * l == -p.log10(i),
        lambda i, e, l: -1000 * (log10(i) / (e * l)),
    ),
    Case(
        "a sine bar",
        {"h": around("mm", 50, 0.002), "l": around("mm", 100, 0.003)},
        Wanted("deg", (0, 80)),
        lambda a, h, l: p.sin(a) == h / l,
        lambda h, l: asin(h / l) / DEG,
    ),
    Case(
        "the law of cosines",
        {
            "a": around("m", 30, 0.02),
            "b": around("m", 40, 0.02),
            "c": Read("deg", (10, 170), (59.95, 60.05), DEG),
        },
        Wanted("m", (0, 200)),
        lambda s, a, b, c: s**2 == a**2 + b**2 - 2 * a * b * p.cos(c),
        lambda a, b, c: (a**2 + b**2 - 2 * a * b * cos(c)) ** 0.5,
    ),
    Case(
        "a tower",
        {
            "d": around("m", 50, 0.1),
            "a": Read("deg", (0, 80), (31.9, 32.1), DEG),
            "i": around("m", 1.6, 0.01),
        },
        Wanted("m", (0, 300)),
        lambda h, d, a, i: h == d * p.tan(a) + i,
        lambda d, a, i: d * tan(a) + i,
    ),
    Case(
        "a capacitor that runs empty",
        {
            "v": around("V", 3.68, 0.02),
            "s": around("V", 10, 0.02),
            "t": around("s", 10, 0.05),
            "r": around("kohm", 100, 0.5),
        },
        Wanted("uF", (10, 1000)),
        lambda c, v, s, t, r: v == s * p.exp(-t / (r * c)),
        lambda v, s, t, r: -1000 * (t / (r * ln(v / s))),
    ),
    Case(
        "a link",
        {"s": Read("dBm", (-30, 40), (9.8, 10.2)), "g": Read("dB", (-200, 50), (-31, -29))},
        Wanted("mW", (0, 1)),
        lambda r, s, g: r == p.at_level(s + g, of="W"),
        lambda s, g: exp((s + g) * (math.log(10) / 10)),
    ),
    Case(
        "an angle by its legs",
        {"y": around("m", 12, 0.02), "x": Read("m", (-20, 20), (-5.02, -4.98))},
        Wanted("deg", (-180, 180)),
        lambda a, y, x: a == p.degrees(p.atan2(y, x)),
        lambda y, x: 90 - atan(x / y) / DEG,
    ),
]


def asked(case: Case, seconds: float) -> tuple[float, float, float, float]:
    """The best width for what is wanted, the widths by `ask` and `shave`, and the seconds that both
    took."""
    low, high = best(case.formula, [read.box for read in case.read.values()])
    with Workbench() as w:
        ends, unit = case.wanted.ends, case.wanted.unit
        wanted = w.measured("wanted", unit=unit, low=ends[0], high=ends[1])
        cells: list[Quantity] = []
        for name, read in case.read.items():
            cells.append(w.measured(name, unit=read.unit, low=read.ends[0], high=read.ends[1]))
            w.read(f"{name} is read", cells[-1], read.read)
        laws = case.laws(wanted, *cells)
        for law in laws if isinstance(laws, list) else [laws]:
            w.law(law)
        began = time.monotonic()
        widths = [_width(wanted.ask(), case, low, high)]
        widths.append(_width(w.shave(wanted, seconds=seconds), case, low, high))
        return (high - low) / case.wanted.factor, *widths, time.monotonic() - began


def _width(answer: MeasuredAnswer, case: Case, low: float, high: float) -> float:
    """The width of an answer, as a part of the best. Raises SystemExit where it lacks something."""
    assert answer.low is not None and answer.high is not None
    least, most = (float(end) * case.wanted.factor for end in (answer.low, answer.high))
    tiny = (high - low) * 1e-6 + 1e-9 * abs(high)
    if least > low + tiny or most < high - tiny:
        sys.exit(
            f"{case.name}: {low}..{high} is possible, and the answer {answer.low}..{answer.high}"
        )
    return (most - least) / (high - low)


def main() -> None:
    read = argparse.ArgumentParser(description=(__doc__ or "").partition("\n")[0])
    read.add_argument("--seconds", type=float, default=30)
    read.add_argument("cases", nargs="*")
    given = read.parse_args()
    rows, ratios = [], []
    for case in CASES:
        if given.cases and case.name not in given.cases:
            continue
        width, by_ask, by_shave, took = asked(case, given.seconds)
        ratios.append((by_ask, by_shave))
        rows.append((case.name, f"{width:.4g}", f"{by_ask:.3f}", f"{by_shave:.3f}", f"{took:.1f}"))
        print(*rows[-1], file=sys.stderr, flush=True)
    print(table(HEADS, rows))
    asks, shaves = (statistics.median(each) for each in zip(*ratios))
    print(f"\nmedian of {len(ratios)}: by ask {asks:.3f}, by shave {shaves:.3f} of the best")


if __name__ == "__main__":
    main()
