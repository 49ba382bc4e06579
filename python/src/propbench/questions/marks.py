"""Names that nothing has yet: what they begin with stands nowhere in some lines."""

from collections.abc import Iterable


def mark_for(base: Iterable[str], form: str = "_q{}_") -> str:
    """What does not stand in the lines, so that names which begin with it are not taken."""
    text, number = " ".join(base), 0
    while (mark := form.format(number)) in text:
        number += 1
    return mark
