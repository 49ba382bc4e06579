"""What may be typed next on a line: commands, words of the form, and names in their places."""

from collections.abc import Iterable

from propbench.grammar import FORMS, KINDS, Parse, Role, parsed
from propbench.kit import KIT
from propbench.known import Known
from propbench.required import WORDS
from propbench.words import MARKS


def completions(text: str, known: Known, asides: Iterable[str] = ()) -> tuple[str, list[str]]:
    """The word that the text ends with, "" behind a blank or a mark, and what it may become.

    Where the line can't be gone on with there is nothing. `asides` are what may stand alone on a
    line beside the language's commands.
    """
    begun = _last_word(text)
    before = text[: len(text) - len(begun)]
    if not before.strip():
        return begun, _starting(begun, [*FORMS, *asides])
    parse = parsed(before)
    if parse.broken is not None or not parse.places:
        return begun, []
    found: list[str] = []
    for expected in parse.expected:
        if isinstance(expected, Role):
            found += _names(expected, parse, known)
        else:
            found.append(expected)
    return begun, _starting(begun, found)


def _last_word(text: str) -> str:
    start = len(text)
    while start and text[start - 1] not in MARKS + " \t":
        start -= 1
    return text[start:]


def _starting(begun: str, words: Iterable[str]) -> list[str]:
    """The words that begin so, each once, in order."""
    return [word for word in dict.fromkeys(words) if word.startswith(begun)]


def _names(role: Role, parse: Parse, known: Known) -> Iterable[str]:
    """The names that may stand for a role in the line so far."""
    if role is Role.KIND:
        return [*KINDS, *known.domains]
    if role is Role.DOMAIN:
        return known.domains
    if role is Role.CELL:
        return _cells(parse, known)
    if role is Role.TERM:
        return [*known.cells, *(it for each in known.domains.values() for it in each), *WORDS]
    if role is Role.INNER_CELL:
        return [token.text for token in parse.of(Role.NEW_PARAMETER, Role.NEW_LOCAL)]
    if role is Role.PROCEDURE:
        return [*known.definitions, *KIT]
    if role in (Role.TOLD, Role.PREMISE):
        return known.premises
    if role is Role.GIVEN:
        return known.relations
    if role in (Role.VALUE, Role.ELEMENT):
        return known.domain_of(parse.of(Role.CELL)[0].text)
    if role in (Role.FIRST, Role.SECOND):
        return _pair(role, parse, known)
    return ()


def _cells(parse: Parse, known: Known) -> Iterable[str]:
    """The cells; behind a procedure those of the kind that its next place takes, where it has one
    of its own."""
    procedures = parse.of(Role.PROCEDURE)
    kit = KIT.get(procedures[0].text) if procedures else None
    place = len(parse.of(Role.CELL))
    if kit is None or place >= len(kit.kinds):
        return known.cells
    wanted = {"S": "span", "T": "truth"}.get(kit.kinds[place])
    return [cell for cell, kind in known.cells.items() if wanted in (None, kind)]


def _pair(role: Role, parse: Parse, known: Known) -> Iterable[str]:
    names = [token.text for token in parse.of(Role.DOMAIN)]
    name = names[0] if role is Role.FIRST else names[1]
    return known.domains.get(name, ())
