"""Readings in every written form beside an evaluation of its own in exact fractions."""

import random
from fractions import Fraction
from math import ceil, floor

import pytest
from conftest import TIMES
from written_readings import UNITS, Span, drawn_reading, drawn_unit, span_of, spoilt
from written_readings import unit_of as own_unit

from propbench import Workbench
from propbench.measuring import units
from propbench.measuring.readings import Reading, reading_of
from propbench.measuring.units import unit_of

# 20,000 where $PROPBENCH_TESTS is 20.
NUMBER = 1000 * TIMES


@pytest.fixture(autouse=True)
def alone(monkeypatch: pytest.MonkeyPatch) -> None:
    """The package knows the units of its own table, whether pint is installed or not."""
    monkeypatch.setattr(units, "_of_pint", lambda word: None)


def read(text: str, own: str) -> Reading | None:
    """The reading that the package finds, None where it refuses the text."""
    try:
        return reading_of(text, unit_of(own))
    except ValueError:
        return None


def differs(text: str, own: str) -> str | None:
    """How the package's reading of a text is not the evaluation's; None where it is."""
    wanted, found = span_of(text, own), read(text, own)
    if wanted is None or found is None:
        is_same = wanted is None and found is None
        return None if is_same else f"{text!r} of {own}: {found} is not {wanted}"
    is_standard = found.coverage is not None
    if Span(found.low, found.high, is_standard) != wanted:
        return f"{text!r} of {own}: {found} is not {wanted}"
    return None


def test_written_forms() -> None:
    draw = random.Random(1)
    texts = [(drawn_reading(draw, own), own) for own in (drawn_unit(draw) for _ in range(NUMBER))]
    assert [said for text, own in texts if (said := differs(text, own))] == []
    # (most are readings, and the others are what nobody can tell)
    assert sum(span_of(*each) is not None for each in texts) > 0.6 * NUMBER
    assert {own for _, own in texts} == {name for names in UNITS.values() for name in names.split()}


def test_what_is_no_reading_is_refused_whole() -> None:
    draw = random.Random(2)
    texts = []
    for own in (drawn_unit(draw) for _ in range(NUMBER)):
        text = spoilt(draw, drawn_reading(draw, own))
        texts.append((spoilt(draw, text) if draw.random() < 0.3 else text, own))
    assert [said for text, own in texts if (said := differs(text, own))] == []
    assert sum(span_of(*each) is None for each in texts) > 0.4 * NUMBER


def outward(number: Fraction, is_up: bool) -> Fraction:
    """The decimal that is told for an end: the same where it has 44 digits or fewer, else one of
    24 digits, down or up."""
    whole = number * 10**900
    if whole.denominator == 1 and len(str(whole).strip("-0")) <= 44:
        return number
    power = 0
    while abs(number) >= Fraction(10) ** power:
        power += 1
    while number and abs(number) < Fraction(10) ** (power - 1):
        power -= 1
    step = Fraction(10) ** (power - 24)
    return (-floor(-number / step) if is_up else floor(number / step)) * step


def test_what_is_told_is_what_was_read() -> None:
    """The answer to a reading is its exact span, rounded outward, and its cell what holds that."""
    draw = random.Random(3)
    count = 0
    while count < NUMBER // 2:
        with Workbench() as w:
            for _ in range(50):
                own = drawn_unit(draw)
                text = drawn_reading(draw, own)
                span = span_of(text, own)
                unit = own_unit(own)
                if span is None or max(abs(span.low), abs(span.high)) > 10**80:
                    continue
                low, high = ((end - unit.zero) / unit.factor for end in (span.low, span.high))
                far = 3 * ceil(max(abs(low), abs(high))) + 1
                x = w.measured(f"x{count}", own, -far, 2 * far)
                w.read("reading", x, text)
                answer = x.ask()
                assert answer.low is not None and answer.high is not None
                told = Fraction(answer.low), Fraction(answer.high)
                assert told == (outward(low, False), outward(high, True)), (text, own)
                count += 1
