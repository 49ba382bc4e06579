"""Refusals: an exception for each number of docs/LANGUAGE.md ("Refusals")."""

from dataclasses import dataclass, field
from itertools import chain

from propbench.blame import Blame
from propbench.nearby import near_names
from propbench.showing import MOST_SHOWN, cut, shown, width


@dataclass(eq=False)
class Refused(Exception):
    """The program refused a line, and changed nothing.

    `number` and `text` are the program's, `line` the line as it was sent, and `line_number` its
    place among all lines that were sent to the session, from 1. `word` is the word that the refusal
    speaks of, and `column` where it begins, in characters from 1; both are None where no single
    word is at fault. `replies` holds, where many lines were sent at once, the reply or refusal of
    each of them.
    """

    number: int
    text: str
    line: str
    line_number: int
    blame: Blame = field(default_factory=Blame, repr=False)
    replies: "list[object]" = field(default_factory=list, repr=False)

    @property
    def word(self) -> str | None:
        """The word that the refusal speaks of, None where no single word is at fault."""
        return self.blame.word

    @property
    def column(self) -> int | None:
        """Where the word begins, or where one is missing, in characters from 1."""
        return None if self.blame.start is None else self.blame.start + 1

    @property
    def near(self) -> tuple[str, ...]:
        """Known names that are spelled much like the word, nearest first."""
        if self.word is None or not self.blame.among:
            return ()
        return near_names(self.word, chain.from_iterable(self.blame.among))

    @property
    def reply(self) -> str:
        """What the program answered."""
        return f"error {self.number}: {self.text}"

    @property
    def says(self) -> str:
        """What is wrong, in a sentence or two, with the names that may be meant."""
        near = " or ".join(self.near)
        return " ".join(filter(None, [self.blame.says, f"Did you mean {near}?" if near else ""]))

    def pointed(self, indent: str = "  ") -> str:
        """The line, and under it carets that point to the word, where there is one. Of a line of
        more than 200 letters that is so much, about the word."""
        if self.blame.start is None:
            return indent + cut(self.line.removesuffix("\r"))
        # (of a long line the part that has the word)
        line, start = self.line.removesuffix("\r"), self.blame.start
        first = 0 if len(line) <= MOST_SHOWN else max(0, start - MOST_SHOWN // 2)
        front = ".. " if first else ""
        before = width(front + line[first:start])
        carets = "^" * max(1, width((self.word or "")[: MOST_SHOWN - (start - first)]))
        return f"{indent}{front}{cut(line[first:])}\n{indent}{' ' * before}{carets}"

    def told(self, place: str = "") -> str:
        """What the program answered, with a place in front where one is given; the line, with the
        word pointed to; and what is wrong."""
        lines = [
            f"{place}: {self.reply}" if place else self.reply,
            self.pointed(),
            f"  {self.says}",
        ]
        return shown("\n".join(line for line in lines if line.strip()))

    def __str__(self) -> str:
        return self.told(f"line {self.line_number}")


class LineTooLong(Refused):
    """1: a line of more than 4,096 bytes."""


class NotUtf8(Refused):
    """2: a line that is no UTF-8."""


class UnknownCommand(Refused):
    """3: the first word is no command."""


class WrongForm(Refused):
    """4: the rest of the line doesn't follow the command's form."""


class NotAName(Refused):
    """5: a word in a name's place is no name."""


class NotANumberInRange(Refused):
    """6: a word in a number's place is no number, or is out of range."""


class NameTaken(Refused):
    """7: something has the name already, or a name stands twice."""


class NoSuchDomain(Refused):
    """8: no domain has the name."""


class NoSuchCell(Refused):
    """9: no cell has the name; in a definition, no parameter and no earlier local."""


class NoSuchPremise(Refused):
    """10: nothing was ever told under the name."""


class NoSuchProcedure(Refused):
    """11: neither a procedure nor a definition has the name."""


class WrongCountOfCells(Refused):
    """12: a procedure or definition takes another number of cells."""


class WrongKind(Refused):
    """13: a cell or a value is of another kind than its place takes."""


class WrongParameter(Refused):
    """14: what stands behind `by` is not taken, or is missing."""


class NotInTheDomain(Refused):
    """15: a word is no element of the domain."""


class LimitReached(Refused):
    """16: there are as many as there may be."""


class IsAChoice(Refused):
    """17: a choice has the name, where a premise is asked for."""


class EmptyValue(Refused):
    """18: A..B with A above B, or braces around nothing."""


class NoSuchRelation(Refused):
    """19: no relation has the name."""


class OutOfMemory(Refused):
    """90: the program was refused memory."""


CLASSES: dict[int, type[Refused]] = {
    1: LineTooLong,
    2: NotUtf8,
    3: UnknownCommand,
    4: WrongForm,
    5: NotAName,
    6: NotANumberInRange,
    7: NameTaken,
    8: NoSuchDomain,
    9: NoSuchCell,
    10: NoSuchPremise,
    11: NoSuchProcedure,
    12: WrongCountOfCells,
    13: WrongKind,
    14: WrongParameter,
    15: NotInTheDomain,
    16: LimitReached,
    17: IsAChoice,
    18: EmptyValue,
    19: NoSuchRelation,
    90: OutOfMemory,
}
