"""Times, counts, names and paths that a caller gives; where one is none, that is said in his
words."""

import os
from collections.abc import Container, Iterable, Mapping
from numbers import Integral, Real


def seconds_given(seconds: object) -> float | None:
    """How many seconds something may take, None where it has no end. Raises TypeError for what is
    no number, and ValueError for less than nothing."""
    if seconds is None:
        return None
    if isinstance(seconds, bool) or not isinstance(seconds, Real):
        raise TypeError(f"seconds are a number, as in seconds=10: {seconds!r}")
    time = float(seconds)
    if not time >= 0:
        raise ValueError(f"a question can't take {seconds} seconds")
    return time


def count_given(count: object, what: str) -> int:
    """How many, from 0 on. Raises TypeError for what is no whole number, and ValueError for less
    than nothing."""
    if isinstance(count, bool) or not isinstance(count, Integral):
        raise TypeError(f"{what} is a whole number: {count!r}")
    if count < 0:
        raise ValueError(f"{what} is a whole number from 0: {count}")
    return int(count)


def names_given(given: object, known: Container[str] | None = None) -> tuple[str, ...]:
    """Names that are given one by one, or in one text with spaces between. Of names that are known
    one may have spaces itself: the text is that one then, and so is one of which no word is known.
    Raises TypeError for what is neither.

    >>> names_given("ana ben"), names_given(["ana", "ben"])
    (('ana', 'ben'), ('ana', 'ben'))
    >>> names_given("Ana's wish", ["Ana's wish", "cheap"]), names_given("a b", ["a", "b"])
    (("Ana's wish",), ('a', 'b'))
    """
    if isinstance(given, str):
        words = tuple(given.split())
        if known is None or (given not in known and any(word in known for word in words)):
            return words
        return (given,)
    if isinstance(given, Iterable) and not isinstance(given, Mapping):
        names = tuple(given)
        if all(isinstance(name, str) for name in names):
            return names
    raise TypeError(f"names are one text with spaces between, or a list of texts: {given!r}")


def path_given(path: object) -> str | os.PathLike[str]:
    """The path of a file. Raises TypeError for what is none, as for the number of an open file."""
    if not isinstance(path, str | os.PathLike):
        raise TypeError(f"a file is named by a text: {path!r}")
    return path
