"""What follows for measured quantities: answers in their units."""

from collections.abc import Iterable, Mapping
from dataclasses import dataclass, field
from decimal import Decimal
from fractions import Fraction

from propbench.model.answers import Answer
from propbench.model.measures import Interval, Measure, text_of_number


@dataclass(frozen=True)
class MeasuredAnswer(Answer):
    """What follows for a quantity. `low` and `high` are decimals in its unit, and `value` is the
    Interval from the one to the other. `coverage` has for each reading of a standard uncertainty
    how many times that was taken.

    >>> w = Workbench()
    >>> height = w.measured("height", "m", 0, 100, step="0.1")
    >>> w.read("tape", height, "12.0(5) m", coverage=3)
    >>> answer = height.ask()
    >>> print(answer.low, answer.high, dict(answer.coverage))
    10.5 13.5 {'tape': Fraction(3, 1)}
    """

    # (the ends of other answers are whole numbers)
    low: Decimal | None  # type: ignore[assignment]
    high: Decimal | None  # type: ignore[assignment]
    coverage: Mapping[str, Fraction] = field(default_factory=dict)

    @property
    def width(self) -> Decimal | None:
        """How far the ends are from each other.

        >>> w = Workbench()
        >>> height = w.measured("height", "m", 0, 100, step="0.1")
        >>> w.read("tape", height, "12.0 m +- 0.5 m")
        >>> print(height.ask().width)
        1.0
        """
        return None if self.low is None or self.high is None else self.high - self.low

    def __str__(self) -> str:
        notes = coverage_text(self.coverage)
        return f"{super().__str__()} ({notes})" if notes else super().__str__()


def measured(answer: Answer) -> MeasuredAnswer:
    """The answer, which is one for a quantity."""
    assert isinstance(answer, MeasuredAnswer)
    return answer


def coverage_text(coverage: Mapping[str, Fraction]) -> str:
    """How many times standard uncertainties were taken, for people."""
    return ", ".join(f"{name}: u taken {text_of_number(k)} times" for name, k in coverage.items())


def coverage_of(answers: Iterable[Answer]) -> str:
    """How many times the standard uncertainties were taken that answers rest on."""
    found: dict[str, Fraction] = {}
    for answer in answers:
        if isinstance(answer, MeasuredAnswer):
            found.update(answer.coverage)
    return coverage_text(found)


def interval_of(
    measure: Measure, low: int, high: int, known: Iterable[tuple[Fraction, Fraction]]
) -> Interval:
    """The reals for which the cell holds `low` to `high`, among those that are known anyway: each
    of `known` is a reading that counts, or the quantity's own bounds."""
    ends = measure.reals(low, high)
    for least, most in known:
        ends = max(ends[0], least), min(ends[1], most)
    # (where the readings leave nothing, the cell says the same soon)
    return measure.interval(min(ends), max(ends))
