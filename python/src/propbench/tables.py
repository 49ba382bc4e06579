"""Tables of text in columns, with what can't be printed escaped."""

from collections.abc import Sequence

from propbench.showing import printable, width

# The last column is never narrower than so many letters.
_LEAST = 20


def table(
    heads: Sequence[str], rows: Sequence[Sequence[str]], indent: str = "", most: int | None = None
) -> str:
    """The rows under their heads, each column as wide as its widest text. Where lines may have at
    most so many letters, the texts of the last column go on below themselves."""
    shown = [[printable(text) for text in row] for row in (heads, *rows)]
    widths = [max(width(row[i]) for row in shown) for i in range(len(heads))]
    if most is not None:
        room = max(_LEAST, most - len(indent) - sum(wide + 2 for wide in widths[:-1]))
        shown = [line for row in shown for line in _wrapped(row, room)]
    lines = []
    for row in shown:
        padded = [text + " " * (wide - width(text)) for text, wide in zip(row, widths)]
        lines.append(indent + "  ".join(padded).rstrip())
    return "\n".join(lines)


def _wrapped(row: list[str], room: int) -> list[list[str]]:
    """The row, its last text in pieces of at most so many letters."""
    import textwrap

    *front, last = row
    first, *more = textwrap.wrap(last, room) or [""]
    return [[*front, first], *([*([""] * len(front)), piece] for piece in more)]
