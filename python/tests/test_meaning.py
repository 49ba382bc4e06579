"""What expressions mean at all points, by Python's own arithmetic, and between which numbers they
are said to lie."""

from collections.abc import Iterator
from typing import Any

import pytest
from modelling import (
    COMPARISONS,
    ENDS,
    Bench,
    NoValue,
    Recipe,
    all_points,
    bench,
    built,
    cell,
    meant,
    names_in,
)

from propbench.model.events import Required
from propbench.model.kinds import Plain
from propbench.model.meaning import NoValueThere, value_of
from propbench.model.ranges import range_of

X, Y, Z = map(cell, ENDS)
TWO = ("sum", "difference", "product", "quotient", "remainder", "maximum", "minimum")
TRUTH = ("less", X, ("constant", 1))
BY_ZERO = [(name, X, Y) for name in ("quotient", "remainder")]


def numbers(*of: Recipe) -> Iterator[Recipe]:
    """Each operation on these numbers, in each order, and on constants."""
    for first in of:
        yield ("absolute", first)
        yield ("negative", first)
        for other in (*of, ("constant", -2), ("constant", 3)):
            for name in TWO:
                yield (name, first, other)
            yield ("if", TRUTH, first, other)


def recipes() -> list[Recipe]:
    """Operations on cells, and on what is made of two of them; and comparisons of these."""
    simple = [*numbers(X, Y), ("count", TRUTH, cell("b")), ("table", cell("d"))]
    within = [each for one in simple for each in numbers(one, Z)]
    orders = sorted(COMPARISONS - {"later", "early", "different"})
    compared = [(name, one, other) for name in orders for one in simple for other in (X, Z)]
    truths = [(name, TRUTH, cell("b")) for name in ("and", "or", "xor", "implies")]
    days = [("later", cell("d"), cell("e")), ("early", cell("d")), ("different", X, Y, Z)]
    alone = [("different", each) for each in (X, *BY_ZERO)]
    powers = [("power", each, ("constant", power)) for each in (X, *BY_ZERO) for power in (0, 1, 3)]
    ones = [("equal", power, ("constant", 1)) for power in powers]
    return [
        *simple,
        *within[::7],
        *compared,
        *truths,
        ("not", TRUTH),
        *days,
        *alone,
        *powers,
        *ones,
    ]


@pytest.fixture(scope="module")
def made(program: str) -> Iterator[Bench]:
    found = bench(program)
    with found.workbench:
        yield found


def value(recipe: Recipe, at: dict[str, Any]) -> Any:
    """What a recipe means at a point, None for nothing."""
    try:
        return meant(recipe, at)
    except NoValue:
        return None


def test_each_operation_at_all_points(made: Bench) -> None:
    declared = {name: each.declared for name, each in made.cells.items()}
    for recipe in recipes():
        node = built(recipe, made.cells).node
        for at in all_points(names_in(recipe)):
            points = {declared[name]: point for name, point in at.items()}
            try:
                found = value_of(node, points)
            except NoValueThere:
                found = None
            assert found == value(recipe, at), (recipe, at)


def orders() -> list[Recipe]:
    """Comparisons of sums of a few cells, by themselves and of which one has to hold."""
    sums = [("sum", X, Y), ("difference", X, Y), ("sum", X, ("constant", 2)), ("negative", Y), X]
    alone = [
        (name, one, other)
        for name in ("less", "at most", "greater", "at least")
        for one in sums
        for other in (Y, Z, ("difference", Z, X), ("constant", 1))
    ]
    return [*alone, *(("or", one, other) for one in alone[::7] for other in alone[::9])]


def test_what_is_stated_holds_where_its_bounds_say_so(made: Bench) -> None:
    """Bounds are worked out in place of most comparisons, and say the same."""
    declared, bounded = {name: each.declared for name, each in made.cells.items()}, 0
    for recipe in [*orders(), *(each for each in recipes() if each[0] in COMPARISONS)]:
        event = Required(built(recipe, made.cells).node, None)
        bounded += event.orders is not None
        for at in all_points(names_in(recipe)):
            points = {declared[name]: point for name, point in at.items()}
            assert event.is_met(points) == value(recipe, at), (recipe, at)
    assert bounded > len(orders()) // 2


def test_ranges_have_each_value(made: Bench) -> None:
    for recipe in recipes():
        node = built(recipe, made.cells).node
        if node.kind is Plain.NUMBER:
            low, high = range_of(node)
            for at in all_points(names_in(recipe)):
                found = value(recipe, at)
                assert found is None or low <= found <= high, (recipe, at)
