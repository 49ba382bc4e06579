"""A pygments lexer of the language: each word coloured by what it is there for."""

from collections.abc import Iterator

from pygments.lexer import Lexer
from pygments.token import (
    Comment,
    Error,
    Keyword,
    Name,
    Number,
    Punctuation,
    Text,
    _TokenType,
)

from propbench.grammar import Place, Role, parsed
from propbench.required import WORDS
from propbench.words import ends_of, is_silent

_STYLES: dict[Role, _TokenType] = {
    Role.COMMAND: Keyword,
    Role.KIND: Keyword.Type,
    Role.DOMAIN: Name.Class,
    Role.NEW_DOMAIN: Name.Class,
    Role.PROCEDURE: Name.Function,
    Role.NEW_DEFINITION: Name.Function,
    Role.TOLD: Name.Decorator,
    Role.PREMISE: Name.Decorator,
    Role.NEW_CHOICE: Name.Decorator,
    Role.STEPS: Number,
    Role.COUNT: Number,
    Role.GIVEN: Name.Constant,
    Role.NEW_RELATION: Name.Constant,
    Role.NEW_ELEMENT: Name.Constant,
    Role.ELEMENT: Name.Constant,
    Role.FIRST: Name.Constant,
    Role.SECOND: Name.Constant,
    Role.VALUE: Name.Constant,
}


class PropbenchLexer(Lexer):
    """Colours lines of the workbench's language, as far as each has its command's form."""

    name = "propbench"
    aliases = ["propbench"]
    filenames = ["*.prop"]

    def get_tokens_unprocessed(self, text: str) -> Iterator[tuple[int, _TokenType, str]]:
        """The pieces of a text, each with its place and its kind."""
        start = 0
        for line in text.splitlines(keepends=True):
            body = line.rstrip("\r\n")
            for place, kind, piece in _pieces(body):
                yield start + place, kind, piece
            if len(body) < len(line):
                yield start + len(body), Text, line[len(body) :]
            start += len(line)


def _pieces(line: str) -> Iterator[tuple[int, _TokenType, str]]:
    if is_silent(line):
        yield 0, Comment if line.strip() else Text, line
        return
    parse = parsed(line)
    done = 0
    for place in parse.places:
        if place.token.start > done:
            yield done, Text, line[done : place.token.start]
        yield place.token.start, _kind(place), place.text
        done = place.token.end
    if done < len(line):
        yield done, Error if line[done:].strip() else Text, line[done:]


def _kind(place: Place) -> _TokenType:
    if place.role is None:
        return Punctuation if place.token.is_mark else Keyword
    if place.role is Role.TERM and place.text in WORDS:
        return Keyword
    if place.role in (Role.VALUE, Role.GIVEN, Role.TERM) and ends_of(place.text):
        return Number
    return _STYLES.get(place.role, Name.Variable)
