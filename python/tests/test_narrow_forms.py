"""Laws in which a quantity stands twice are answered by one run as if it stood once, where another
form of the law has it once. Expected ends are worked out by hand."""

from collections.abc import Callable, Iterator
from fractions import Fraction

import pytest

from propbench import Workbench, exp
from propbench.measuring.quantities import MeasuredAnswer
from propbench.measuring.terms import Term


@pytest.fixture
def w(wide: str) -> Iterator[Workbench]:
    with Workbench(program=wide) as made:
        yield made


def is_near(answer: MeasuredAnswer, low: Fraction, high: Fraction) -> bool:
    """Whether an answer has all from one number to another, and hardly more."""
    assert answer.low is not None and answer.high is not None
    near = (high - low) / 1000
    is_outside = Fraction(answer.low) <= low and high <= Fraction(answer.high)
    return (
        is_outside and low - near <= Fraction(answer.low) and Fraction(answer.high) <= high + near
    )


# A formula, and what it is where x is from 2/5 to 9/10, which is read.
TWICE = [
    (lambda x: x / (1 + x), Fraction(2, 7), Fraction(9, 19)),
    (lambda x: 3 * x / (2 - x), Fraction(3, 4), Fraction(27, 11)),
    (lambda x: x**2 - x, Fraction(-1, 4), Fraction(-9, 100)),
    (lambda x: 2 * x**2 + 3 * x - 1, Fraction(13, 25), Fraction(83, 25)),
    (lambda x: (x - 1) * (x + 1) + 3 * x, Fraction(9, 25), Fraction(251, 100)),
]


@pytest.mark.parametrize(("formula", "low", "high"), TWICE)
def test_a_quantity_that_stands_twice(
    w: Workbench, formula: Callable[[Term], Term], low: Fraction, high: Fraction
) -> None:
    x = w.measured("x", low="0.1", high="1.5", step="0.0001")
    y = w.measured("y", low=-10, high=20, step="0.0001")
    w.law(y == formula(x))
    w.read("rule", x, ("0.4", "0.9"))
    assert is_near(y.ask(), low, high)


def test_a_square_may_be_completed_backwards(w: Workbench) -> None:
    """x**2 - x is 2 at 2, and 3.75 at 2.5, where x is more than 1/2."""
    x = w.measured("x", low="0.6", high=10, step="0.0001")
    y = w.measured("y", low=-10, high=100, step="0.0001")
    w.law(y == x**2 - x)
    w.read("area", y, ("2", "3.75"))
    assert is_near(x.ask(), Fraction(2), Fraction(5, 2))


def test_products_of_two(w: Workbench) -> None:
    """x y + 2 x + 3 y is (x + 3) (y + 2) - 6."""
    x, y = (w.measured(name, low=-10, high=10, step="0.0001") for name in "xy")
    z = w.measured("z", low=-500, high=500, step="0.0001")
    w.law(z == x * y + 2 * x + 3 * y)
    w.read("one", x, ("-2", "-1"))
    w.read("other", y, ("-1", "1"))
    # (from 1 to 2, times 1 to 3, less 6)
    assert is_near(z.ask(), Fraction(-5), Fraction(0))


def test_a_bridge_by_what_divides_a_voltage(w: Workbench) -> None:
    """c / (c + r), where c and r are read, is as if c stood once."""
    c = w.measured("c", unit="ohm", low=300, high=3000)
    r = w.measured("r", unit="ohm", low=300, high=3000)
    share = w.measured("share", low=0, high=1)
    w.law(share == c / (c + r))
    w.read("c is read", c, (999, 1001))
    w.read("r is read", r, (499, 501))
    assert is_near(share.ask(), Fraction(999, 1500), Fraction(1001, 1500))


def test_an_exponential_that_may_be_much_or_little(w: Workbench) -> None:
    """What it is in the end is told to its own digits, also where it might have been 10^100."""
    pytest.importorskip("mpmath")
    volts = w.measured("volts", unit="V", low="0.1", high=10)
    start = w.measured("start", unit="V", low=1, high=100)
    time = w.measured("time", unit="s", low=0, high=1000)
    tau = w.measured("tau", unit="s", low="0.1", high=1000)
    w.law(volts == start * exp(-time / tau))
    w.read("begun", start, (10, 10))
    w.read("ended", volts, ("3.6787944", "3.6787945"))
    w.read("clock", time, (20, 21))
    answer = tau.ask()
    assert answer.low is not None and answer.high is not None
    # (e is 10 / 3.67879441..)
    assert 19.99999 < float(answer.low) <= 20 and 21 <= float(answer.high) < 21.00001
