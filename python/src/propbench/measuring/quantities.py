"""Measured quantities: cells whose values are real numbers in a unit, and what follows for them."""

from fractions import Fraction

from propbench.measuring.exact import Exact, exact_of, number_in
from propbench.measuring.terms import Real, RealSort, Term
from propbench.measuring.units import Unit, unit_of
from propbench.model.cells import Answerer, Cell
from propbench.model.measured import MeasuredAnswer as MeasuredAnswer
from propbench.model.measured import coverage_of as coverage_of
from propbench.model.measured import coverage_text as coverage_text
from propbench.model.measured import measured as measured
from propbench.model.measures import Measure, rounded
from propbench.model.nodes import Declared

# A cell counts so many steps at the most, where the user's step is divided by a power of ten for
# that; so many where the user gave none; and never more than the last.
_FINE, _FINEST, _MOST = 10**8, 10**15, 8 * 10**17


class Quantity(Cell, Term):
    """A measured quantity: a real number in a unit, whose cell counts steps of it. `w.measured`
    makes one, and `w.read` tells a reading; it lies where all readings of it overlap.

    >>> w = Workbench()
    >>> height = w.measured("height", "m", 0, 100, step="0.1")
    >>> w.read("tape", height, "12.0 m +- 0.5 m")
    >>> w.read("laser", height, "12.3 m +- 0.4 m")
    >>> print(height.ask())
    height = 11.9..12.5 m because of tape, laser
    """

    def __init__(self, declared: Declared, workbench: Answerer) -> None:
        super().__init__(declared, workbench)
        assert declared.measure is not None
        self._measure = declared.measure
        self._unit = unit_of(declared.measure.unit)

    @property
    def measure(self) -> Measure:
        """What the cell counts.

        >>> w = Workbench()
        >>> w.measured("height", "m", 0, 100).measure.unit
        'm'
        """
        return self._measure

    @property
    def unit(self) -> Unit:
        """The unit in which the quantity is told.

        >>> w = Workbench()
        >>> w.measured("height", "km", 0, 100).unit.factor
        Fraction(1000, 1)
        """
        return self._unit

    @property
    def real(self) -> Real:
        return Real(RealSort.QUANTITY, (), self._unit.dimension, declared=self.declared)

    def ask(self, *, over: str | None = None, seconds: float | None = None) -> MeasuredAnswer:
        """What follows for the quantity: real numbers between which it lies, outward.

        A run that isn't done after `seconds` is cut, and the answer says that it isn't settled.
        Raises Conflict where what is believed can't all hold.

        >>> w = Workbench()
        >>> height = w.measured("height", "m", 0, 100, step="0.1")
        >>> w.read("tape", height, "12.0 m +- 0.5 m")
        >>> answer = height.ask()
        >>> print(answer.low, answer.high, answer.width)
        11.5 12.5 1.0
        """
        return measured(super().ask(over=over, seconds=seconds))

    def why(self, *, seconds: float | None = None) -> MeasuredAnswer:
        return measured(super().why(seconds=seconds))

    def core(self, *, seconds: float | None = None) -> MeasuredAnswer:
        return measured(super().core(seconds=seconds))


def measure_of(
    name: str, unit: Unit, low: Exact | str, high: Exact | str, step: Exact | str | None
) -> Measure:
    """What the cell of a quantity counts. Raises ValueError where it can't count that."""
    ends = _number(low), _number(high)
    if ends[0] > ends[1]:
        raise ValueError(f"from {low} to {high} there is no number, for {name!r}")
    digits = None if step is None else _number(step)
    if digits is not None and digits <= 0:
        raise ValueError(f"a step is more than 0, and that of {name!r} is {step}")
    return measure_between(name, unit, ends, digits)


def measure_between(
    name: str, unit: Unit, between: tuple[Fraction, Fraction], step: Fraction | None
) -> Measure:
    """The same, of a quantity between two numbers in its unit, the lower one in front."""
    ends = [end * unit.factor + unit.offset for end in between]
    most = max(abs(end) for end in ends) or unit.factor
    digits = _usual_step(most / unit.factor) if step is None else step
    counted = digits * unit.factor
    if most > _MOST * counted:
        wanted = _usual_step(most / unit.factor)
        raise ValueError(
            f"{name!r} has more steps than a cell can count: step={rounded(wanted, True):f} would"
            " do"
        )
    while most * 10 <= (_FINEST if step is None else _FINE) * counted:
        counted /= 10
    return Measure(unit.text, unit.factor, unit.offset, counted, digits, ends[0], ends[1])


def countable(step: Fraction, unit: Unit, between: tuple[Fraction, Fraction]) -> Fraction:
    """A step, or ten times as much so often that a cell can count what lies between two numbers in
    a unit."""
    most = max(abs(end * unit.factor + unit.offset) for end in between)
    while most > _MOST * step * unit.factor:
        step *= 10
    return step


def _number(given: Exact | str) -> Fraction:
    """An end or a step, exact. Raises ValueError for a text that is no number, and TooLong."""
    return number_in(given) if isinstance(given, str) else exact_of(given)


def _usual_step(most: Fraction) -> Fraction:
    """A millionth of this, or somewhat more or less: a power of ten."""
    step = Fraction(1)
    while most > step * 10**6:
        step *= 10
    while most * 10 <= step * 10**6:
        step /= 10
    return step
