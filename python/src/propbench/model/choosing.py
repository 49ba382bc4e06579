"""Choices of up to 64 alternatives, by one or two of the language's, which have up to eight.

Of many alternatives the first choice takes a group of eight, and the second a place in all groups:
together one alternative. The first was made first, so alternatives are tried as they stand.
"""

from collections.abc import Sequence

from propbench.model.naming import INNER
from propbench.words import MOST_SIDES

MOST_ALTERNATIVES = MOST_SIDES**2
# The name of a second choice is that of the first behind this.
_SECOND = f"{INNER}c_"


def is_large(count: int) -> bool:
    """Whether so many alternatives need a second choice."""
    return count > MOST_SIDES


def second_name(first: str) -> str:
    """The name on a line of the second choice, by that of the first."""
    return f"{_SECOND}{first}"


def first_name(line_name: str) -> str:
    """The name on a line of the first choice, by that of either."""
    return line_name.removeprefix(_SECOND)


def sides_of(elements: Sequence[str]) -> tuple[list[str], list[str]]:
    """What the sides of the two choices state, of the elements that stand for alternatives."""
    groups = [elements[first : first + MOST_SIDES] for first in range(0, len(elements), MOST_SIDES)]
    places = [elements[place::MOST_SIDES] for place in range(MOST_SIDES)]
    return [_some(group) for group in groups], [_some(place) for place in places]


def alternative_of(sides: Sequence[int]) -> int:
    """The alternative on which the sides of one choice, or of both, stand; all are counted from
    0."""
    return sides[0] if len(sides) == 1 else sides[0] * MOST_SIDES + sides[1]


def alternatives_at(line_name: str, side: int, count: int) -> Sequence[int]:
    """The alternatives that a side of one of the choices leaves, of so many."""
    if not is_large(count):
        return [side]
    if line_name.startswith(_SECOND):
        return range(side, count, MOST_SIDES)
    return range(side * MOST_SIDES, min((side + 1) * MOST_SIDES, count))


def _some(elements: Sequence[str]) -> str:
    return "{" + " ".join(elements) + "}"
