"""FlatZinc read: words, and the items that they make.

What is no FlatZinc is refused by NotSupported, with the line.
"""

import re
from collections.abc import Callable
from dataclasses import dataclass
from fractions import Fraction
from typing import TypeVar

from propbench.flatzinc.terms import (
    Array,
    Call,
    Constraint,
    Flat,
    FlatTerm,
    Goal,
    Name,
    NotSupported,
    Numbers,
    Reals,
    Sort,
    Text,
    Variable,
)

# Brackets lie so deep within one another at the most, and numbers and shown words have so many
# letters.
_DEEPEST, _LONGEST, _SHOWN = 100, 40, 60
_WORD = re.compile(
    r"(?P<silent>[ \t\r]+|%[^\n]*)|(?P<line>\n)|(?P<float>-?[0-9]+(\.[0-9]+([eE][-+]?[0-9]+)?"
    r"|[eE][-+]?[0-9]+))|(?P<number>-?(0x[0-9A-Fa-f]+|0o[0-7]+|[0-9]+))|(?P<name>[A-Za-z_]\w*)"
    r'|(?P<text>"([^"\\\n]|\\.)*")|(?P<mark>::|\.\.|[:;,=()\[\]{}])'
)
Some = TypeVar("Some")


@dataclass(frozen=True)
class _Word:
    sort: str
    text: str
    line: int


def read(text: str) -> Flat:
    """The model that a file of FlatZinc holds. Raises NotSupported."""
    return _Reader(_words(text)).model()


def _words(text: str) -> list[_Word]:
    words: list[_Word] = []
    line, place = 1, 0
    while place < len(text):
        found = _WORD.match(text, place)
        if found is None:
            raise NotSupported(line, f"no word of FlatZinc begins with {text[place]!r}")
        sort = str(found.lastgroup)
        if sort == "line":
            line += 1
        elif sort != "silent":
            words.append(_Word(sort, found[0], line))
        place = found.end()
    words.append(_Word("end", "the end of the file", line))
    return words


class _Reader:
    """Reads items, one word after another."""

    def __init__(self, words: list[_Word]) -> None:
        self._words, self._place = words, 0
        self._deep = 0
        self._flat = Flat()

    def model(self) -> Flat:
        """All items."""
        while self._next.sort != "end":
            self._item()
        return self._flat

    # --- words ---

    @property
    def _next(self) -> _Word:
        return self._words[self._place]

    def _take(self) -> _Word:
        word = self._next
        self._place += word.sort != "end"
        return word

    def _is(self, text: str) -> bool:
        """Takes this word, where it is the next."""
        is_next = self._next.text == text and self._next.sort in ("name", "mark")
        self._place += is_next
        return is_next

    def _want(self, text: str) -> None:
        if not self._is(text):
            raise self._error(f"{text!r} is wanted, and not {_said(self._next)}")

    def _error(self, text: str) -> NotSupported:
        return NotSupported(self._next.line, text)

    def _name(self) -> str:
        word = self._take()
        if word.sort != "name":
            raise NotSupported(word.line, f"a name is wanted, and not {_said(word)}")
        return word.text

    def _new_name(self) -> str:
        """A name that nothing has yet."""
        line, name, flat = self._next.line, self._name(), self._flat
        if name in flat.variables or name in flat.parameters or name in flat.arrays:
            raise NotSupported(line, f"{name[:_SHOWN]} is declared twice")
        return name

    def _list(self, one: Callable[[], Some], end: str) -> list[Some]:
        """What stands between commas, up to an end."""
        found: list[Some] = []
        while not self._is(end):
            found.append(one())
            if not self._is(","):
                self._want(end)
                break
        return found

    # --- items ---

    def _item(self) -> None:
        if self._is("predicate"):
            while not self._is(";"):
                if self._take().sort == "end":
                    raise self._error("';' is wanted")
            return
        if self._is("constraint"):
            self._constraint()
        elif self._is("solve"):
            self._goal()
        elif self._is("array"):
            self._array()
        elif self._is("var"):
            self._variable()
        else:
            self._parameter()
        self._want(";")

    def _constraint(self) -> None:
        line = self._next.line
        name = self._name()
        self._want("(")
        args = tuple(self._list(self._term, ")"))
        defined = None
        for each in self._annotations():
            if isinstance(each, Call) and each.name == "defines_var" and len(each.args) == 1:
                [variable] = each.args
                defined = variable.text if isinstance(variable, Name) else None
        self._flat.constraints.append(Constraint(name, args, defined, line))

    def _goal(self) -> None:
        line = self._next.line
        annotations = self._annotations()
        sort = self._name()
        if sort not in ("satisfy", "minimize", "maximize"):
            raise NotSupported(
                line, f"a goal is satisfy, minimize or maximize, and not {sort[:_SHOWN]!r}"
            )
        objective = None if sort == "satisfy" else self._term()
        self._flat.goal = Goal(sort, objective, annotations, line)

    def _array(self) -> None:
        line = self._next.line
        self._want("[")
        self._term()
        self._want("]")
        self._want("of")
        self._is("var")
        self._kind()
        self._want(":")
        name = self._new_name()
        printed: tuple[Numbers, ...] | None = None
        for each in self._annotations():
            if isinstance(each, Call) and each.name == "output_array":
                printed = _sets(each, line)
        self._want("=")
        elements = self._term()
        if not isinstance(elements, tuple):
            raise NotSupported(line, f"the array {name[:_SHOWN]} has to be told by its elements")
        self._flat.arrays[name] = Array(name, elements, printed, line)

    def _variable(self) -> None:
        line = self._next.line
        sort, values = self._kind()
        self._want(":")
        name = self._new_name()
        annotations = self._annotations()
        value = self._term() if self._is("=") else None
        if isinstance(values, Reals):
            made = Variable(name, sort, None, annotations, value, line, values)
        else:
            made = Variable(name, sort, values, annotations, value, line)
        self._flat.variables[name] = made

    def _parameter(self) -> None:
        self._kind()
        self._want(":")
        name = self._new_name()
        self._annotations()
        self._want("=")
        self._flat.parameters[name] = self._term()

    def _kind(self) -> tuple[Sort, Numbers | Reals | None]:
        """What a kind is for, and what numbers it has, None for all."""
        if self._is("bool"):
            return Sort.TRUTH, None
        if self._is("int"):
            return Sort.NUMBER, None
        if self._is("float"):
            return Sort.FLOAT, None
        if self._is("set"):
            self._want("of")
            return Sort.SET, self._kind()[1]
        values = self._term()
        if isinstance(values, Reals):
            return Sort.FLOAT, values
        if not isinstance(values, Numbers):
            raise self._error("a kind is bool, int, float, or a set of numbers")
        return Sort.NUMBER, values

    def _annotations(self) -> tuple[FlatTerm, ...]:
        found = []
        while self._is("::"):
            found.append(self._term())
        return tuple(found)

    # --- terms ---

    def _term(self) -> FlatTerm:
        self._deep += 1
        if self._deep > _DEEPEST:
            raise self._error(f"brackets lie more than {_DEEPEST} deep within one another")
        found = self._term_within()
        self._deep -= 1
        return found

    def _term_within(self) -> FlatTerm:
        word = self._take()
        if word.sort == "number" and len(word.text) > _LONGEST:
            raise NotSupported(word.line, f"a number has more than {_LONGEST} letters")
        if word.sort == "number":
            low = int(word.text, 0) if word.text.lstrip("-")[:2] in ("0x", "0o") else int(word.text)
            return Numbers.span(low, self._number()) if self._is("..") else low
        if word.sort == "float":
            real = _fraction(word)
            return Reals(real, self._real()) if self._is("..") else real
        if word.sort == "text":
            return Text(word.text[1:-1].replace('\\"', '"').replace("\\\\", "\\"))
        if word.text in ("true", "false"):
            return word.text == "true"
        if word.sort == "name":
            return Call(word.text, self._args()) if self._is("(") else Name(word.text)
        if word.text == "[":
            return tuple(self._list(self._term, "]"))
        if word.text == "{":
            return Numbers.of(self._list(self._number, "}"))
        raise NotSupported(word.line, f"a value is wanted, and not {_said(word)}")

    def _args(self) -> tuple[FlatTerm, ...]:
        return tuple(self._list(self._term, ")"))

    def _real(self) -> Fraction:
        value = self._term()
        if not isinstance(value, Fraction):
            raise self._error("a float is wanted")
        return value

    def _number(self) -> int:
        value = self._term()
        if isinstance(value, bool) or not isinstance(value, int):
            raise self._error("a whole number is wanted")
        return value


def _fraction(word: _Word) -> Fraction:
    """The number that a word with a point stands for, just as it is written."""
    _, _, power = word.text.lower().partition("e")
    if len(word.text) > _LONGEST or abs(int(power or 0)) > _LONGEST:
        raise NotSupported(word.line, f"a float has more than {_LONGEST} digits")
    return Fraction(word.text)


def _said(word: _Word) -> str:
    """A word as a message shows it."""
    return word.text if word.sort == "end" else repr(word.text[:_SHOWN])


def _sets(printed: Call, line: int) -> tuple[Numbers, ...]:
    """The sets over which an array is printed."""
    sets = printed.args[0] if len(printed.args) == 1 else None
    if not isinstance(sets, tuple) or not all(isinstance(each, Numbers) for each in sets):
        raise NotSupported(line, "an array is printed over sets of numbers")
    return tuple(each for each in sets if isinstance(each, Numbers))
