"""The greatest, the least, the sum and the mean: of measured quantities, or of whole numbers."""

from collections.abc import Callable, Iterable
from functools import partial
from typing import overload

from propbench.measuring.terms import Operand, RealSort, Term, extreme, mean, sum_of
from propbench.model import expressions
from propbench.model.expressions import Number

Whole = Number | int


# (of nothing but numbers both fit: the first is meant)
@overload
def maximum(*numbers: Whole | Iterable[Whole]) -> Number:  # type: ignore[misc]
    ...


@overload
def maximum(*numbers: Operand | Iterable[Term]) -> Term:
    ...


def maximum(*numbers: object) -> Number | Term:
    """The greatest of these numbers, or of these quantities and what is made of them, given one by
    one or as one list."""
    return _over(numbers, partial(extreme, RealSort.GREATEST), expressions.maximum)


# (of nothing but numbers both fit: the first is meant)
@overload
def minimum(*numbers: Whole | Iterable[Whole]) -> Number:  # type: ignore[misc]
    ...


@overload
def minimum(*numbers: Operand | Iterable[Term]) -> Term:
    ...


def minimum(*numbers: object) -> Number | Term:
    """The least of these numbers, or of these quantities and what is made of them, given one by one
    or as one list."""
    return _over(numbers, partial(extreme, RealSort.LEAST), expressions.minimum)


# (of nothing but numbers both fit: the first is meant)
@overload
def total(*numbers: Whole | Iterable[Whole]) -> Number:  # type: ignore[misc]
    ...


@overload
def total(*numbers: Operand | Iterable[Term]) -> Term:
    ...


def total(*numbers: object) -> Number | Term:
    """The sum of these numbers, or of these quantities and what is made of them, given one by one
    or as one list."""
    return _over(numbers, sum_of, expressions.total)


def _over(
    numbers: tuple[object, ...],
    of_terms: Callable[[list[object]], Term],
    of_wholes: Callable[..., Number],
) -> Number | Term:
    """What one of two functions makes of what was given one by one, or as one list: the first where
    anything of it is measured. (Either looks at what it is given.)"""
    given = list(numbers)
    if len(given) == 1 and not isinstance(given[0], Term | Number | int | str):
        [several] = given
        given = list(several) if isinstance(several, Iterable) else given
    return of_terms(given) if any(isinstance(each, Term) for each in given) else of_wholes(given)


__all__ = ["maximum", "mean", "minimum", "total"]
