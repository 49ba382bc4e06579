"""Values as a user gives them, and what is stated by them."""

from collections.abc import Iterable, Sequence
from typing import TYPE_CHECKING, Any

from propbench.given import names_given
from propbench.model.events import AlternativeValues
from propbench.model.expressions import point_of
from propbench.model.kinds import Domain, Plain
from propbench.model.measures import Measure
from propbench.model.nodes import Declared
from propbench.words import MOST_NUMBER

if TYPE_CHECKING:
    from propbench.measuring.readings import Reading

# A number, a truth, a name, or several names of which one is it.
GivenValue = int | bool | str | Sequence[str]


def values_of(cell: Declared, value: object, high: object = None) -> AlternativeValues:
    """What is stated of a cell: a value, the numbers up to `high`, or some elements.

    Raises TypeError where a value is of another kind than the cell, and ValueError for an empty one
    and one that the cell can't hold.
    """
    if cell.measure is not None:
        from propbench.measuring.readings import reading_of
        from propbench.measuring.units import unit_of

        found = reading_of(given_of(value, high), unit_of(cell.measure.unit))
        return cells_of(cell.measure, found)
    if high is not None and cell.kind is not Plain.NUMBER:
        raise TypeError(f"{cell.name!r} holds no numbers, so there is no {high!r} to go up to")
    if cell.kind is Plain.NUMBER:
        low = int(point_of(value, cell.kind))
        most = low if high is None else int(point_of(high, cell.kind))
        if low > most:
            raise ValueError(f"from {low} to {most} there is no number, for {cell.name!r}")
        return low, most
    if isinstance(cell.kind, Domain):
        points = {point_of(name, cell.kind) for name in _several(cell, value)}
        if not points:
            raise ValueError(f"{cell.name!r} is one of no elements")
        return tuple(name for name in cell.kind.elements if name in points)
    return (point_of(value, cell.kind),)


def cells_of(measure: Measure, reading: "Reading") -> tuple[int, int]:
    """What the cell of a quantity may hold by a reading."""
    low, high = (measure.count(end) for end in (reading.low, reading.high))
    return min(max(low, -MOST_NUMBER), MOST_NUMBER), min(max(high, -MOST_NUMBER), MOST_NUMBER)


# (Any, for what a user gives may be anything: `reading_of` looks at what it is)
def given_of(value: object, high: object = None) -> Any:
    """A reading that is given as such, or by two ends."""
    return value if high is None else (value, high)


def alternative_of(cell: Declared, value: object) -> AlternativeValues:
    """What an alternative of a choice states of a cell: a pair of numbers is from one to other."""
    if cell.measure is not None:
        return values_of(cell, tuple(value) if isinstance(value, list) else value)
    if cell.kind is Plain.NUMBER and isinstance(value, Sequence) and len(value) == 2:
        return values_of(cell, *value)
    return values_of(cell, value)


def _several(cell: Declared, value: object) -> Iterable[object]:
    """The names, as they are given."""
    assert isinstance(cell.kind, Domain)
    if isinstance(value, str):
        return names_given(value, cell.kind.elements)
    if not isinstance(value, Iterable):
        raise TypeError(f"{value!r} is no element of {cell.kind}: write its name as a text")
    return value
