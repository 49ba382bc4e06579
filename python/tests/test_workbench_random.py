"""Random constraints: what a workbench answers, against brute force over all points."""

from typing import Any

from hypothesis import assume, example, given
from hypothesis import strategies as st
from modelling import (
    CELLS,
    TWO_OF_THREE,
    Bench,
    Recipe,
    all_points,
    bench,
    built,
    cell,
    far,
    meant,
    names_in,
    tell_all,
    truths,
)

from propbench import Conflict, Elements, Span


def solutions(recipes: list[Recipe]) -> tuple[set[str], list[dict[str, Any]]]:
    """The cells in some recipes, and the points at which all hold."""
    names = set().union(*map(names_in, recipes))
    fit = [at for at in all_points(names) if all(meant(each, at) for each in recipes)]
    return names, fit


def left(made: Bench, name: str) -> set[Any]:
    """The values that an answer leaves for a cell."""
    value = made.cells[name].ask().value
    if isinstance(value, Span):
        return set(range(value.low, value.high + 1))
    if isinstance(value, Elements):
        return {{"yes": True, "no": False}.get(each, each) for each in value.names}
    return {value}


def all_left(made: Bench) -> dict[str, set[Any]] | None:
    """What is left for each cell, None at a conflict."""
    if not made.workbench.settle():
        return None
    return {name: left(made, name) for name in CELLS}


def is_within(one: dict[str, set[Any]] | None, other: dict[str, set[Any]] | None) -> bool:
    """Whether as much is known as elsewhere, or more: a conflict is most."""
    return one is None or (other is not None and all(one[name] <= other[name] for name in CELLS))


@given(st.lists(truths, min_size=1, max_size=3))
def test_no_solution_is_left_out(program: str, recipes: list[Recipe]) -> None:
    names, fit = solutions(recipes)
    made = bench(program)
    with made.workbench:
        for each in recipes:
            made.workbench.require(built(each, made.cells))
        found = all_left(made)
        if found is None:
            assert not fit
            return
        for name in names:
            assert {at[name] for at in fit} <= found[name]


@given(truths, st.data())
def test_points_are_judged_as_by_brute_force(
    program: str, recipe: Recipe, data: st.DataObject
) -> None:
    names, fit = solutions([recipe])
    anywhere = list(all_points(names))
    points = data.draw(st.lists(st.sampled_from(anywhere), min_size=1, max_size=6))
    made = bench(program)
    with made.workbench as w:
        w.require(built(recipe, made.cells), under="it")
        for number, at in enumerate(points):
            premise = f"point {number}"
            tell_all(made, at, premise)
            assert w.settle() is (at in fit), at
            w.kick("it")
            assert w.settle(), at
            w.bring("it")
            w.kick(premise)


@given(st.lists(truths, min_size=1, max_size=3))
def test_a_believed_premise_is_as_strong_as_none(program: str, recipes: list[Recipe]) -> None:
    plain, gated, without = bench(program), bench(program), bench(program)
    with plain.workbench, gated.workbench, without.workbench:
        nothing = all_left(without)
        for number, each in enumerate(recipes):
            plain.workbench.require(built(each, plain.cells))
            gated.workbench.require(built(each, gated.cells), under=f"p{number}")
        found, believed = all_left(plain), all_left(gated)
        assert is_within(believed, found)
        for number in range(len(recipes)):
            gated.workbench.kick(f"p{number}")
        assert all_left(gated) == nothing
        for number in range(len(recipes)):
            gated.workbench.bring(f"p{number}")
        assert all_left(gated) == believed


# One of two elements, by a number.
GUARDED: Recipe = ("if", ("less", cell("z"), ("constant", 0)), cell("d"), cell("e"))


@given(st.one_of(truths, truths.map(far)), st.booleans(), st.booleans())
@example(recipe=("later", cell("d"), cell("e")), holds=True, is_plain=True)
@example(recipe=("later", cell("d"), cell("e")), holds=False, is_plain=False)
@example(recipe=far(("later", GUARDED, cell("e"))), holds=False, is_plain=False)
@example(recipe=TWO_OF_THREE, holds=True, is_plain=True)
@example(recipe=TWO_OF_THREE, holds=True, is_plain=False)
def test_what_is_stated_is_known_where_its_truth_stands(
    program: str, recipe: Recipe, holds: bool, is_plain: bool
) -> None:
    """Whichever is stated first, it or what speaks of its truth."""
    found = []
    for is_first in (True, False):
        made = bench(program)
        with made.workbench as w:
            it, truth = built(recipe, made.cells), w.truth("truth")
            stated = {"it": it if holds else ~it, "of it": truth == it}
            for name in stated if is_first else reversed(stated):
                w.require(stated[name], under=None if is_plain else name)
            found.append(all_left(made))
            assert found[-1] is None or truth.ask().value is holds
    assert found[0] == found[1]


@given(truths, truths, st.data())
def test_alternatives_hold_in_their_plans(
    program: str, one: Recipe, other: Recipe, data: st.DataObject
) -> None:
    """A choice of constraints at a point stands on the first that holds there."""
    names = names_in(one) | names_in(other)
    at = data.draw(st.sampled_from(list(all_points(names))))
    fit = [meant(one, at), meant(other, at)]
    made = bench(program)
    with made.workbench as w:
        tell_all(made, at, "point")
        alternatives = {"one": built(one, made.cells), "other": [built(other, made.cells)]}
        w.choose("way", alternatives)
        assert w.settle() is any(fit)
        assume(any(fit))
        answer = made.cells[sorted(names)[0]].ask()
        assert answer.choices == {"way": "one" if fit[0] else "other"}


@given(truths, st.data())
def test_conflicts_are_minimal(program: str, recipe: Recipe, data: st.DataObject) -> None:
    names, fit = solutions([recipe])
    against = [at for at in all_points(names) if at not in fit]
    assume(against)
    at = data.draw(st.sampled_from(against))
    made = bench(program)
    with made.workbench as w:
        w.require(built(recipe, made.cells), under="it")
        for name, value in at.items():
            w.tell(f"{name} is told", made.cells[name], value)
        try:
            made.cells["x"].ask()
        except Conflict as conflict:
            found = conflict.premises
        assert set(w.believed) == {"it", *(f"{name} is told" for name in at)}
        for premise in w.believed:
            if premise not in found:
                w.kick(premise)
        assert not w.settle()
        for premise in found:
            w.kick(premise)
            assert w.settle()
            w.bring(premise)
