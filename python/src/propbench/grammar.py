"""The form of each command: what may stand where on a line.

Translated from docs/LANGUAGE.md ("Commands" and "Definitions"). A form is a generator: it yields
what may come next, and is sent the word or mark that does. So the same forms tell where a line
goes wrong, what each word is there for (its role), and what may be typed next.
"""

from collections.abc import Callable, Generator
from dataclasses import dataclass
from enum import Enum

from propbench.words import MOST_SIDES, Token, constraint_of, tokens_of

KINDS = ("span", "truth", "symbol")


class Role(Enum):
    """What a word is there for, in the words of a message."""

    COMMAND = "a command"
    NEW_CELL = "a name for the cell"
    NEW_DOMAIN = "a name for the domain"
    NEW_ELEMENT = "an element"
    NEW_RELATION = "a name for the relation"
    NEW_DEFINITION = "a name for the definition"
    NEW_PARAMETER = "a name for a parameter"
    NEW_LOCAL = "a name for the local cell"
    NEW_CHOICE = "a name for the choice"
    KIND = "a kind: span, truth, symbol or a domain"
    DOMAIN = "a domain"
    PROCEDURE = "a procedure or a definition"
    CELL = "a cell"
    INNER_CELL = "a parameter or a local cell"
    TOLD = "a premise"
    PREMISE = "a premise that was told before"
    VALUE = "a value"
    ELEMENT = "an element of the domain"
    FIRST = "an element of the first domain"
    SECOND = "an element of the second domain"
    GIVEN = "a scale or a relation"
    STEPS = "a number of steps"
    COUNT = "a number of plans"
    TERM = "a constraint"
    END = "the end of the line"


# What may come next: a role is any word, a text is just that word or mark.
Expected = tuple["Role | str", ...]
Form = Generator[Expected, str, None]


@dataclass(frozen=True)
class Place:
    """A word or mark of a line, and what it is there for: a role, or "" where the form itself has
    the word or mark."""

    token: Token
    role: Role | None

    @property
    def text(self) -> str:
        """The word or mark."""
        return self.token.text


@dataclass(frozen=True)
class Parse:
    """A line by its form: the places up to where it breaks. There stands `broken`, or the line's
    end where that is None, and `expected` could have stood."""

    places: tuple[Place, ...]
    complete: bool
    broken: Token | None
    expected: Expected

    @property
    def command(self) -> str:
        """The line's first word, "" where there is none."""
        return self.places[0].text if self.places else ""

    def of(self, *roles: Role) -> list[Token]:
        """The words that are there for one of these."""
        return [place.token for place in self.places if place.role in roles]


def _bare() -> Form:
    yield (Role.END,)


def _domain() -> Form:
    yield (Role.NEW_DOMAIN,)
    yield (Role.NEW_ELEMENT,)
    while True:
        yield (Role.NEW_ELEMENT, Role.END)


def _relation() -> Form:
    yield (Role.NEW_RELATION,)
    yield (Role.DOMAIN,)
    yield (Role.DOMAIN,)
    yield ("=",)
    while True:
        yield (Role.FIRST,)
        yield (Role.SECOND,)
        yield (";", Role.END)


def _cell() -> Form:
    yield (Role.NEW_CELL,)
    yield (Role.KIND,)
    yield (Role.END,)


def _define() -> Form:
    yield (Role.NEW_DEFINITION,)
    yield (Role.NEW_PARAMETER,)
    while (yield (Role.NEW_PARAMETER, "=")) != "=":
        pass
    while True:
        yield from _step()


def _step() -> Form:
    if (yield ("local", Role.PROCEDURE)) == "local":
        yield from _local()
        return
    yield (Role.INNER_CELL,)
    while True:
        word = yield (Role.INNER_CELL, "by", ";", Role.END)
        if word == ";":
            return
        if word == "by":
            yield ("*", Role.GIVEN)
            yield (";", Role.END)
            return


def _local() -> Form:
    """Behind `local`. Where more stands there than a local has, it is a use of what is no name."""
    yield (Role.NEW_LOCAL,)
    kind = yield (Role.KIND, ";", Role.END)
    if kind == ";":
        return
    if kind == "like":
        if (yield (Role.INNER_CELL, ";", Role.END)) == ";":
            return
    while (yield (";", Role.INNER_CELL, Role.END)) != ";":
        pass


def _attach() -> Form:
    yield (Role.PROCEDURE,)
    yield (Role.CELL,)
    while (yield (Role.CELL, "by", Role.END)) != "by":
        pass
    yield (Role.GIVEN,)
    yield (Role.END,)


def _value() -> Form:
    if (yield (Role.VALUE, "{")) == "{":
        while (yield (Role.ELEMENT, "}")) != "}":
            pass


def _fix() -> Form:
    yield (Role.CELL,)
    yield from _value()
    yield (Role.END,)


def _tell() -> Form:
    yield (Role.TOLD,)
    yield (Role.CELL,)
    yield from _value()
    yield (Role.END,)


def _choose() -> Form:
    yield (Role.NEW_CHOICE,)
    yield (Role.CELL,)
    yield from _value()
    yield ("or",)
    yield from _value()
    for _ in range(2, MOST_SIDES):
        yield ("or", Role.END)
        yield from _value()
    yield (Role.END,)


def _of_premise() -> Form:
    yield (Role.PREMISE,)
    yield (Role.END,)


def _of_cell() -> Form:
    yield (Role.CELL,)
    yield (Role.END,)


def _of_cells() -> Form:
    while True:
        yield (Role.CELL, Role.END)


def _end_of() -> Form:
    yield (Role.CELL,)
    yield from _of_cells()


def _plans() -> Form:
    yield (Role.COUNT,)
    yield from _end_of()


def _counted() -> Form:
    yield (Role.COUNT,)
    yield (Role.END,)


def _repairs() -> Form:
    yield (Role.COUNT,)
    if (yield ("by", Role.END)) == "by":
        yield (Role.PREMISE,)
        yield (Role.COUNT,)
        while True:
            yield (Role.PREMISE, Role.END)
            yield (Role.COUNT,)


def _require() -> Form:
    yield (Role.TERM,)
    while (yield (Role.TERM, "under", Role.END)) != "under":
        pass
    yield (Role.TOLD,)
    yield (Role.END,)


def _limit() -> Form:
    yield (Role.STEPS,)
    yield (Role.END,)


FORMS: dict[str, Callable[[], Form]] = {
    "domain": _domain,
    "relation": _relation,
    "cell": _cell,
    "define": _define,
    "attach": _attach,
    "fix": _fix,
    "tell": _tell,
    "kick": _of_premise,
    "bring": _of_premise,
    "forget": _of_premise,
    "choose": _choose,
    "limit": _limit,
    "ask": _of_cell,
    "why": _of_cell,
    "core": _of_cell,
    "settle": _bare,
    "worldview": _bare,
    "nogoods": _bare,
}

# The commands that run the network.
RUNNING = frozenset(("ask", "why", "core", "settle", "worldview"))
# Those that tell what a run does, what a value is made of, and what there is: propwide has them,
# and propbench has not.
TELLING: dict[str, Callable[[], Form]] = {"step": _bare, "how": _of_cell, "list": _bare}
# Those that ask for points that fit: propwide has them as well.
SEEKING: dict[str, Callable[[], Form]] = {
    "solve": _of_cells,
    "least": _end_of,
    "greatest": _end_of,
    "plans": _plans,
}
# Those that ask what can't all hold, and what to give up: propwide has them as well.
BLAMING: dict[str, Callable[[], Form]] = {"conflicts": _counted, "repairs": _repairs}
# That which states a constraint as one writes it: propwide has it as well.
REQUIRING: dict[str, Callable[[], Form]] = {"require": _require}
_ALL = {**FORMS, **TELLING, **SEEKING, **BLAMING, **REQUIRING}
# Those that ask: they are answered by more than `ok`, and change nothing that was said.
ASKING = RUNNING | TELLING.keys() | SEEKING.keys() | BLAMING.keys() | {"nogoods"}


def parsed(line: str) -> Parse:
    """The line by the form of its command. Without a command nothing of it has a place."""
    tokens = tokens_of(line)
    if not tokens or tokens[0].text not in _ALL:
        return Parse((), False, tokens[0] if tokens else None, (Role.COMMAND,))
    if tokens[0].text in REQUIRING:
        tokens[1:] = constraint_of(line, tokens[0].end)
    places = [Place(tokens[0], Role.COMMAND)]
    form = _ALL[tokens[0].text]()
    expected = next(form)
    for token in tokens[1:]:
        place = _placed(token, expected)
        if place is None:
            return Parse(tuple(places), False, token, expected)
        places.append(place)
        try:
            expected = form.send(token.text)
        except StopIteration:
            expected = (Role.END,)
    return Parse(tuple(places), Role.END in expected, None, expected)


def _placed(token: Token, expected: Expected) -> Place | None:
    if token.text in expected:
        return Place(token, None)
    if Role.TERM in expected:
        return Place(token, Role.TERM if token.is_word else None)
    roles = [role for role in expected if isinstance(role, Role) and role is not Role.END]
    return Place(token, roles[0]) if roles and not token.is_mark else None


# The commands that go on where they are asked again.
SEARCHING = (*SEEKING, *BLAMING)
