"""Constraints as `require` has them: their words, and what is said of one that is refused.

The program alone decides what a constraint means. This tells a user where on its line it goes wrong
(docs/WIDE.md, "Constraints as one writes them").
"""

import re
from collections.abc import Iterator

from propbench.known import Known
from propbench.words import Token

# The words of constraints that are no names.
WORDS = (
    "and or not xor implies iff if then else in abs max min sum count different element yes no"
).split()
_NAME = re.compile(r"[^\W\d]\w*")

KIND = "A part of the constraint is of another kind than its place takes."
ELEMENT = "A word of the constraint is no element where it stands."
RANGE = (
    "A part of the constraint may lie beyond 10^18 either way, or divide by zero, by what is known"
    " on no premise: state bounds by `fix` first."
)


def unknown_words(pieces: list[Token], known: Known) -> Iterator[Token]:
    """The words that name no cell and no element, and are none of a constraint's own."""
    elements = {element for elements in known.domains.values() for element in elements}
    for piece in pieces:
        word = piece.text
        if _NAME.fullmatch(word) and word not in (*WORDS, *known.cells, *elements):
            yield piece
