"""Which word of a refused line the refusal speaks of, and what to say of it.

The number and the text of a refusal are the program's. The word is found here, in the line and by
the names that the session knows; where that is not certain, there is none.
"""

from collections.abc import Callable, Collection, Iterator
from dataclasses import dataclass, field
from itertools import islice

from propbench.commands import usages_of
from propbench.fitting import Fitting, Misfit
from propbench import required
from propbench.grammar import (
    BLAMING,
    FORMS,
    KINDS,
    REQUIRING,
    SEEKING,
    Expected,
    Parse,
    Place,
    Role,
    parsed,
)
from propbench.kit import KIT
from propbench.known import Known, steps_of
from propbench.showing import quoted
from propbench.words import (
    MOST_BYTES,
    MOST_SCALE,
    NO_NAMES,
    Token,
    encoded,
    ends_of,
    is_name,
    looks_like_number,
    number_in,
    tokens_of,
)

_NAMES = (
    Role.NEW_CELL,
    Role.NEW_DOMAIN,
    Role.NEW_ELEMENT,
    Role.NEW_RELATION,
    Role.NEW_DEFINITION,
    Role.NEW_PARAMETER,
    Role.NEW_LOCAL,
    Role.NEW_CHOICE,
    Role.DOMAIN,
    Role.PROCEDURE,
    Role.CELL,
    Role.INNER_CELL,
    Role.TOLD,
    Role.PREMISE,
)

# What a program doesn't tell that lacks the command.
_UNTOLD = {
    "step": "what its runs do",
    "how": "what makes up a value",
    "list": "what it holds",
    **dict.fromkeys(SEEKING, "which points fit"),
    **dict.fromkeys(BLAMING, "what can't all hold"),
    **dict.fromkeys(REQUIRING, "what a constraint says"),
}


@dataclass(frozen=True)
class NamesSoFar:
    """The names of a table that only grows, as many as there were when this was made."""

    table: Collection[str]
    count: int

    @staticmethod
    def of(table: Collection[str]) -> "NamesSoFar":
        """The names that the table has now."""
        return NamesSoFar(table, len(table))

    def __iter__(self) -> Iterator[str]:
        return islice(iter(self.table), self.count)


@dataclass(frozen=True)
class Blame:
    """The word that a refusal speaks of, where it begins on the line (in characters, from 0), what
    to say of it, and the names among which it may have been meant to be."""

    word: str | None = None
    start: int | None = None
    says: str = ""
    among: tuple[NamesSoFar, ...] = field(default=(), repr=False)


@dataclass(frozen=True)
class _Case:
    """A refused line, by its form and by the names that were known before it."""

    line: str
    text: str
    known: Known
    parse: Parse

    @property
    def command(self) -> str:
        return self.parse.command

    @property
    def kind(self) -> str:
        """The kind of the cell of which the line says a value."""
        cells = self.parse.of(Role.CELL)
        return self.known.cells.get(cells[0].text, "") if cells else ""

    @property
    def is_constraint(self) -> bool:
        """Whether the line states a constraint as one writes it."""
        return self.command in REQUIRING

    def steps(self) -> list[list[Place]]:
        """The steps of a definition; of an `attach` all that it attaches is one step."""
        places = [place for place in self.parse.places if place.role is not Role.COMMAND]
        return steps_of(places) if self.command == "define" else [places]


def blame_for(line: str, number: int, text: str, known: Known) -> Blame:
    """The word that a refusal of a line speaks of, by its number and text and what was known."""
    find = _FINDERS.get(number)
    # (a line that is too long is not read, as it may be a million times too long)
    parse = parsed(line if number != 1 else "")
    return find(_Case(line, text, known, parse)) if find else Blame()


def _at(token: Token, says: str, *among: Collection[str]) -> Blame:
    return Blame(token.text, token.start, says, tuple(NamesSoFar.of(table) for table in among))


def _too_long(case: _Case) -> Blame:
    count = len(encoded(case.line))
    return Blame(says=f"The line has {count:,} bytes, and {MOST_BYTES:,} is the most.")


def _not_utf8(case: _Case) -> Blame:
    for token in tokens_of(case.line):
        if any("\ud800" <= character <= "\udfff" for character in token.text):
            return _at(token, f"{quoted(token.text)} is no text: save the file as UTF-8.")
    return Blame(says="The line is no text: save the file as UTF-8.")


def _unknown_command(case: _Case) -> Blame:
    first, *more = tokens_of(case.line)
    if first.text in _UNTOLD:
        return _untold(case, first, more)
    return _at(first, f"No command is called {quoted(first.text)}.", FORMS)


def _untold(case: _Case, first: Token, more: list[Token]) -> Blame:
    """Of a command that propwide alone has."""
    if case.parse.complete and case.parse.broken is None:
        says = f"needs propwide: this program doesn't tell {_UNTOLD[first.text]}."
        return _at(first, f"`{first.text}` {says}")
    [usage] = usages_of(first.text)
    written = f"is written `{usage.form}`"
    if usage.form == first.text:
        written = "stands alone on its line"
    return _at((more or [first])[-1], f"`{first.text}` {written}, and needs propwide.")


def _listed(expected: Expected) -> str:
    said = [each.value if isinstance(each, Role) else f"`{each}`" for each in expected]
    return said[0] if len(said) == 1 else ", ".join(said[:-1]) + " or " + said[-1]


def _wrong_form(case: _Case) -> Blame:
    forms = [f"`{usage.form}`" for usage in usages_of(case.command)]
    written = f" It is written {' or '.join(forms)}."
    wanted = _listed(case.parse.expected)
    if case.parse.complete:
        return Blame(says=written.strip())
    if case.parse.broken is None:
        end = len(case.line.rstrip("\r \t"))
        return Blame(None, end, f"Something is missing at the end: {wanted}.{written}")
    broken = case.parse.broken
    if case.parse.expected == (Role.END,):
        return _at(broken, f"The line is complete before {quoted(broken.text)}.{written}")
    return _at(broken, f"In place of {quoted(broken.text)} belongs {wanted}.{written}")


def _why_no_name(word: str) -> str:
    if word in NO_NAMES:
        return f"{quoted(word)} is a word of the language, and can't be a name."
    if word.isidentifier():
        return f"{quoted(word)} can't be a name."
    if not word[0].isidentifier():
        return f"{quoted(word)} is no name: a name begins with a letter or `_`."
    wrong = next(character for character in word if not ("a" + character).isidentifier())
    return f"{quoted(word)} is no name: {quoted(wrong)} can't stand in one; `_` can."


def _is_no_name(place: Place) -> bool:
    word = place.text
    if place.role is Role.KIND:
        return word not in KINDS and not is_name(word)
    if place.role is Role.GIVEN:
        return not looks_like_number(word) and not is_name(word)
    return place.role in _NAMES and not is_name(word)


def _is_no_local(step: list[Place]) -> bool:
    """Whether the step is a use of `local`, which is no name."""
    words = [place.text for place in step]
    is_local = len(words) == 3 or (len(words) == 4 and words[2] == "like")
    return words[:1] == ["local"] and not is_local


def _not_a_name(case: _Case) -> Blame:
    for step in case.steps() if case.command == "define" else []:
        if _is_no_local(step):
            says = "A local cell is written `local n KIND` or `local n like p`."
            return _at(step[0].token, says)
    for place in case.parse.places:
        if _is_no_name(place):
            return _at(place.token, _why_no_name(place.text))
    for token in case.parse.of(Role.VALUE) if case.kind == "symbol" else []:
        if not is_name(token.text):
            return _at(token, _why_no_name(token.text))
    return Blame()


def _not_a_number(case: _Case) -> Blame:
    if case.is_constraint:
        return Blame(says=required.RANGE)
    for token in case.parse.of(Role.STEPS):
        says = "A limit is a whole number of steps from 0 to 1,000,000,000,000,000."
        return _at(token, says)
    for token in case.parse.of(Role.COUNT):
        return _at(token, "So many plans are asked for: a whole number from 1 to 1,000,000,000.")
    for token in case.parse.of(Role.GIVEN):
        if looks_like_number(token.text) and number_in(token.text, 1, MOST_SCALE) is None:
            return _at(token, "A scale is a whole number from 1 to 1,000,000,000.")
    for token in case.parse.of(Role.VALUE) if case.kind == "span" else []:
        if ends_of(token.text) is None:
            return _at(token, _why_no_number(case, token.text))
    return Blame()


def _why_no_number(case: _Case, word: str) -> str:
    cell = case.parse.of(Role.CELL)[0].text
    if word.lstrip("-").isdigit():
        return f"{quoted(word)} is out of range: numbers reach to 10^18 either way."
    return f"{quoted(cell)} is for a whole number, such as 3, or for a range, such as 3..5."


def _repeated(tokens: list[Token]) -> Token | None:
    seen = set()
    for token in tokens:
        if token.text in seen:
            return token
        seen.add(token.text)
    return None


def _name_taken(case: _Case) -> Blame:
    known, parse = case.known, case.parse
    tables: tuple[tuple[Role, Collection[str], str], ...] = (
        (Role.NEW_DOMAIN, known.domains, "A domain"),
        (Role.NEW_RELATION, known.relations, "A relation"),
        (Role.NEW_CELL, known.cells, "A cell"),
        (Role.NEW_DEFINITION, KIT, "A procedure"),
        (Role.NEW_DEFINITION, known.definitions, "A definition"),
        (Role.NEW_CHOICE, known.choices, "A choice"),
        (Role.NEW_CHOICE, known.premises, "A premise"),
    )
    for role, table, what in tables:
        for token in parse.of(role):
            if token.text in table:
                return _at(token, f"{what} has the name {quoted(token.text)} already.")
    within = _repeated(parse.of(Role.NEW_ELEMENT, Role.NEW_PARAMETER, Role.NEW_LOCAL))
    return _at(within, f"{quoted(within.text)} stands here twice.") if within else Blame()


def _no_such_domain(case: _Case) -> Blame:
    tokens = case.parse.of(Role.DOMAIN)
    for step in case.steps():
        kinds = [place.token for place in step if place.role is Role.KIND]
        tokens += [] if case.command == "define" and len(step) == 4 else kinds
    among = case.known.domains if case.command == "relation" else [*case.known.domains, *KINDS]
    for token in tokens:
        if token.text not in among:
            return _at(token, f"There is no domain {quoted(token.text)}.", among)
    return Blame()


def _no_such_relation(case: _Case) -> Blame:
    for token in case.parse.of(Role.GIVEN):
        if not looks_like_number(token.text) and token.text not in case.known.relations:
            says = f"There is no relation {quoted(token.text)}."
            return _at(token, says, case.known.relations)
    return Blame()


def _no_such_cell(case: _Case) -> Blame:
    if case.is_constraint:
        return _no_such_word(case)
    if case.command == "define":
        return _no_such_inner_cell(case)
    for token in case.parse.of(Role.CELL):
        if token.text not in case.known.cells:
            return _at(token, f"There is no cell {quoted(token.text)}.", case.known.cells)
    return Blame()


def _no_such_word(case: _Case) -> Blame:
    for token in required.unknown_words(case.parse.of(Role.TERM), case.known):
        says = f"There is no cell {quoted(token.text)}, and no element."
        return _at(token, says, case.known.cells)
    return Blame()


def _no_such_inner_cell(case: _Case) -> Blame:
    scope = [token.text for token in case.parse.of(Role.NEW_PARAMETER)]
    for step in case.steps():
        for place in step:
            if place.role is Role.INNER_CELL and place.text not in scope:
                name = quoted(place.text)
                says = f"{name} is neither a parameter nor a local cell that was made before."
                return _at(place.token, says, tuple(scope))
        scope += [place.text for place in step if place.role is Role.NEW_LOCAL]
    return Blame()


def _no_such_premise(case: _Case) -> Blame:
    for token in case.parse.of(Role.PREMISE):
        known = case.known
        if token.text not in known.premises and token.text not in known.choices:
            says = f"Nothing was told under {quoted(token.text)}."
            return _at(token, says, known.premises)
    return Blame()


def _no_such_procedure(case: _Case) -> Blame:
    for token in case.parse.of(Role.PROCEDURE):
        if not case.known.is_procedure(token.text):
            says = f"There is no procedure {quoted(token.text)}, and no definition."
            return _at(token, says, KIT, case.known.definitions)
    return Blame()


def _wrong_count(case: _Case) -> Blame:
    for step in case.steps():
        for place in step:
            if place.role is Role.PROCEDURE and case.known.is_procedure(place.text):
                cells = case.known.cells_of(place.text)
                count = sum(each.role in (Role.CELL, Role.INNER_CELL) for each in step)
                if count != len(cells):
                    return _at(place.token, _why_wrong_count(place.text, cells, count))
    return Blame()


def _why_wrong_count(name: str, cells: tuple[str, ...], count: int) -> str:
    takes = f"{len(cells)} cell{'' if len(cells) == 1 else 's'} ({' '.join(cells)})"
    return f"{quoted(name)} takes {takes}, and here {'stands' if count == 1 else 'stand'} {count}."


_WRITTEN = {
    "span": "a whole number, written 3, or 3..5 for a range",
    "symbol": "a symbol, written as a single name",
    "truth": "`yes` or `no`",
}


def _said_kind(kind: str) -> str:
    return {"span": "a number", "truth": "a truth", "symbol": "a symbol"}.get(
        kind, f"an element of {quoted(kind)}"
    )


def _wrong_kind(case: _Case) -> Blame:
    if case.is_constraint:
        return Blame(says=required.KIND)
    if case.command == "attach":
        return _wrong_kind_of_cell(case)
    for place in case.parse.places:
        if place.text == "{":
            cell = quoted(case.parse.of(Role.CELL)[0].text)
            says = f"{cell} is for {_WRITTEN.get(case.kind, 'a single value')}, without braces."
            return _at(place.token, says)
    return Blame()


def _wrong_kind_of_cell(case: _Case) -> Blame:
    cells = case.parse.of(Role.CELL)
    name = case.parse.of(Role.PROCEDURE)[0]
    given = [token.text for token in case.parse.of(Role.GIVEN)]
    kinds = tuple(case.known.cells[cell.text] for cell in cells)
    try:
        Fitting(case.known).check(name.text, kinds, given[0] if given else "")
    except Misfit as misfit:
        if misfit.place is None:
            return _at(name, f"A cell within {quoted(name.text)} is of another kind than it needs.")
        cell, kind = cells[misfit.place], kinds[misfit.place]
        is_for, wants = _said_kind(kind), _said_kind(misfit.wanted)
        says = f"{quoted(cell.text)} is for {is_for}, and {quoted(name.text)} takes {wants} there."
        return _at(cell, says)
    return Blame()


def _wrong_parameter(case: _Case) -> Blame:
    name = case.parse.of(Role.PROCEDURE)[0]
    takes = {"": "nothing", "scale": "a scale alone", "relation": "a relation alone"}
    for token in case.parse.of(Role.GIVEN):
        taken = takes[KIT[name.text].given] if name.text in KIT else "something else or nothing"
        return _at(token, f"{quoted(name.text)} takes {taken} behind `by`.")
    return _at(name, f"{quoted(name.text)} needs a relation: write `by R` at the end of the line.")


def _not_in_the_domain(case: _Case) -> Blame:
    if case.is_constraint:
        return Blame(says=required.ELEMENT)
    if case.command == "relation":
        return _no_pair(case)
    elements = case.known.domain_of(case.parse.of(Role.CELL)[0].text)
    for token in case.parse.of(Role.VALUE, Role.ELEMENT):
        if token.text not in elements:
            says = f"{quoted(token.text)} is none of {_shown(elements)}."
            return _at(token, says, elements)
    return Blame()


def _shown(elements: tuple[str, ...]) -> str:
    more = " .." if len(elements) > 12 else ""
    return f"{{{' '.join(elements[:12])}{more}}}"


def _no_pair(case: _Case) -> Blame:
    names = [token.text for token in case.parse.of(Role.DOMAIN)]
    sides = dict(zip((Role.FIRST, Role.SECOND), names))
    for place in case.parse.places:
        if place.role in (Role.FIRST, Role.SECOND):
            name = sides[place.role]
            elements = case.known.domains.get(name, ())
            if place.text not in elements:
                says = f"{quoted(place.text)} is no element of {quoted(name)}, {_shown(elements)}."
                return _at(place.token, says, elements)
    return Blame()


def _empty_value(case: _Case) -> Blame:
    places = case.parse.places
    for place, behind in zip(places, places[1:]):
        if place.text == "{" and behind.text == "}":
            start, end = place.token.start, behind.token.end
            says = "Name one element or more between the braces."
            return Blame(case.line[start:end], start, says)
    for token in case.parse.of(Role.VALUE):
        ends = ends_of(token.text)
        if ends and ends[0] > ends[1]:
            says = f"The smaller number comes first: `{ends[1]}..{ends[0]}`."
            return _at(token, says)
    return Blame()


def _is_a_choice(case: _Case) -> Blame:
    for token in case.parse.of(Role.TOLD, Role.PREMISE):
        says = f"{quoted(token.text)} is a choice, whose sides nobody tells, kicks or brings."
        return _at(token, says)
    return Blame()


# The word that stands for what there may be no more of, for each word of the refusal's text.
_LIMITED = {
    "cells": Role.NEW_CELL,
    "domains": Role.NEW_DOMAIN,
    "relations": Role.NEW_RELATION,
    "definitions": Role.NEW_DEFINITION,
    "choices": Role.NEW_CHOICE,
    "symbols": Role.VALUE,
}


def _limit_reached(case: _Case) -> Blame:
    what = case.text.rpartition(" ")[2]
    says = f"There are as many {what} as there may be."
    if what == "premises":
        tokens = case.parse.of(Role.TOLD, Role.NEW_CHOICE)
    elif what == "elements":
        tokens = case.parse.of(Role.NEW_ELEMENT)[64:]
    else:
        tokens = case.parse.of(_LIMITED[what]) if what in _LIMITED else []
    return _at(tokens[0], says) if tokens else Blame(says=says)


def _out_of_memory(case: _Case) -> Blame:
    return Blame(says="The program was refused memory; the line may be sent again.")


_FINDERS: dict[int, Callable[[_Case], Blame]] = {
    1: _too_long,
    2: _not_utf8,
    3: _unknown_command,
    4: _wrong_form,
    5: _not_a_name,
    6: _not_a_number,
    7: _name_taken,
    8: _no_such_domain,
    9: _no_such_cell,
    10: _no_such_premise,
    11: _no_such_procedure,
    12: _wrong_count,
    13: _wrong_kind,
    14: _wrong_parameter,
    15: _not_in_the_domain,
    16: _limit_reached,
    17: _is_a_choice,
    18: _empty_value,
    19: _no_such_relation,
    90: _out_of_memory,
}
