"""Names that are spelled much like another, for `did you mean`."""

from collections.abc import Iterable
from itertools import islice

MOST_NEAR = 3
MOST_NAMES = 20_000
# How alike names are at the least, as difflib reckons: `zz` and `z`, `aks` and `ask` are just so.
_LEAST = 0.65


def near_names(word: str, names: Iterable[str]) -> tuple[str, ...]:
    """Up to three of the names that may have been meant by the word, the most alike first, whatever
    is a capital. Of very many names the first 20,000 are looked at."""
    from difflib import get_close_matches

    written: dict[str, list[str]] = {}
    for name in islice(names, MOST_NAMES):
        written.setdefault(name.casefold(), []).append(name)
    close = get_close_matches(word.casefold(), written, MOST_NEAR, _LEAST)
    return tuple(name for small in close for name in written[small])[:MOST_NEAR]
