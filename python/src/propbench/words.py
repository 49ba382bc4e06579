"""The words and marks of a line, and which words are names and numbers.

Translated from the language's description (docs/LANGUAGE.md, "Lines"); the program alone decides
what a line means, and this tells a user where on a line it stands.
"""

import re
from collections.abc import Iterable
from dataclasses import dataclass

MOST_BYTES = 4096
MOST_NUMBER = 10**18
MOST_SIDES = 8
MOST_SCALE = 10**9
MOST_STEPS = 10**15

# What is said in place of premises where there are none.
NO_PREMISE = "no premise"
MARKS = "{};=*"
NO_NAMES = frozenset("by local span symbol truth yes no nothing contradiction".split())

_TOKEN = re.compile(r"[{};=*]|[^{};=* \t]+")
_CONSTRAINT = re.compile(r"'[^']*'|\w+|==|!=|<=|>=|//|\*\*|\.\.|\S")
_NUMBER = re.compile(r"-?[0-9]+")


@dataclass(frozen=True)
class Token:
    """A word or a mark, and where it begins on its line, counted in characters from 0."""

    text: str
    start: int

    @property
    def end(self) -> int:
        """Where it ends."""
        return self.start + len(self.text)

    @property
    def is_mark(self) -> bool:
        """Whether it is one of the marks, which stand for themselves."""
        return self.text in MARKS

    @property
    def is_word(self) -> bool:
        """Whether it is a name, a number, or a name in quotes."""
        return self.text[0] in "_'" or self.text[0].isalnum()


def encoded(line: str) -> bytes:
    """The bytes of a line. A byte that was no UTF-8 when it was read (`surrogateescape`) is that
    byte again; another lone surrogate gives bytes that are no UTF-8, which the program refuses."""
    try:
        return line.encode()
    except UnicodeEncodeError:
        return b"".join(_encoded_character(character) for character in line)


def _encoded_character(character: str) -> bytes:
    is_byte = "\udc80" <= character <= "\udcff"
    return character.encode("utf-8", "surrogateescape" if is_byte else "surrogatepass")


def as_line(line: str | bytes) -> str:
    """The text of a line, without the line feed that may end it.

    Raises ValueError where a line feed stands within, and TypeError for what is no text.
    """
    if not isinstance(line, str | bytes):
        raise TypeError(f"a line is a text: {line!r}")
    text = line if isinstance(line, str) else line.decode("utf-8", "surrogateescape")
    if "\n" in text:
        text = text.removesuffix("\n")
        if "\n" in text:
            raise ValueError("a line feed ends a line: send the lines one by one, or by send_all")
    return text


def is_silent(line: str) -> bool:
    """Whether the program answers nothing to this line: a blank one or a comment."""
    text = line.removesuffix("\r").lstrip(" \t")
    if text and text[0] != "#":
        return False
    return len(line) <= MOST_BYTES and is_well_encoded(line)


def is_well_encoded(line: str) -> bool:
    """Whether the program takes the line's bytes: UTF-8, and not too many."""
    try:
        return len(line.encode()) <= MOST_BYTES
    except UnicodeEncodeError:
        return False


def tokens_of(line: str) -> list[Token]:
    """The words and marks of a line, in order."""
    text = line.removesuffix("\r")
    return [Token(found.group(), found.start()) for found in _TOKEN.finditer(text)]


def constraint_of(line: str, start: int) -> list[Token]:
    """The words and marks of the constraint that begins there, in order: more marks than in other
    lines stand for themselves."""
    text = line.removesuffix("\r")
    return [Token(found.group(), found.start()) for found in _CONSTRAINT.finditer(text, start)]


def is_name(word: str) -> bool:
    """Whether the word may name something (as Python's Unicode knows letters)."""
    return word.isidentifier() and word not in NO_NAMES


def named(premises: Iterable[str]) -> str:
    """Premises as a reply names them."""
    return " ".join(premises) or NO_PREMISE


def names_in(text: str) -> tuple[str, ...]:
    """The premises that a reply names so."""
    return () if text == NO_PREMISE else tuple(text.split(" "))


def looks_like_number(word: str) -> bool:
    """Whether the word is judged as a number where a number or a name may stand."""
    return word[:1] in tuple("-0123456789")


def number_in(word: str, low: int, high: int) -> int | None:
    """The whole number that the word is, where it is one from `low` to `high`."""
    if not _NUMBER.fullmatch(word) or len(word.lstrip("-0")) > 19:
        return None
    number = int(word)
    return number if low <= number <= high else None


def ends_of(word: str) -> tuple[int, int] | None:
    """The ends of `A` or `A..B`, where they are numbers that a cell takes, in whatever order."""
    left, dots, right = word.partition("..")
    low = number_in(left, -MOST_NUMBER, MOST_NUMBER)
    high = number_in(right, -MOST_NUMBER, MOST_NUMBER) if dots else low
    return None if low is None or high is None else (low, high)
