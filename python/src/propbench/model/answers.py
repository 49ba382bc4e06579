"""Answers, and conflicts, in the words of the user."""

from collections.abc import Mapping
from dataclasses import dataclass, field

from propbench.model.kinds import point_text
from propbench.model.measures import Interval
from propbench.showing import printable
from propbench.values import Elements, Impossible, Nothing, Span
from propbench.words import MOST_NUMBER

# What is left for a cell: one value where one is left, else all that are.
Left = int | str | bool | Span | Elements | Nothing | Impossible | Interval

_put = object.__setattr__


@dataclass(frozen=True)
class Answer:
    """What follows for a cell.

    `value` is an int, a bool, or a name, where one is left; else the Span or the Elements that are
    left, `Nothing()` where nothing is known, or `Impossible()` where an unsettled run has found
    that the plan at hand is none. `low` and `high` are the ends of a number, None where nothing is
    known of them. `settled` is False where the run was cut before all was found.

    `because` names premises that are enough for it, and alternatives of choices (`venue: uni`); of
    a `core` none of them can be left out where `reduced` is True. With choices the answer is that
    of one plan, the first that fits: `choices` has for each choice what it stands on.

    >>> w = Workbench()
    >>> x = w.number("x", 0, 9)
    >>> w.tell("Ana", x, 3, 5)
    >>> answer = x.ask()
    >>> answer.low, answer.high, answer.because, answer.settled
    (3, 5, ('Ana',), True)
    """

    name: str
    value: Left
    low: int | None
    high: int | None
    settled: bool
    because: tuple[str, ...]
    choices: Mapping[str, object]
    reduced: bool | None

    def __init__(
        self,
        name: str,
        value: Left,
        low: int | None,
        high: int | None,
        settled: bool,
        because: tuple[str, ...],
        choices: Mapping[str, object] | None = None,
        reduced: bool | None = None,
    ) -> None:
        # (past the freeze, all at once: one by one it would take three times as long)
        held = {
            "name": name,
            "value": value,
            "low": low,
            "high": high,
            "settled": settled,
            "because": because,
            "choices": choices or {},
            "reduced": reduced,
        }
        _put(self, "__dict__", held)

    def __str__(self) -> str:
        text = f"{printable(self.name)} = {self.value_text}"
        if not self.settled:
            text += ", not settled"
        elif self.reduced is False:
            text += ", not reduced"
        if self.because:
            text += f" because of {', '.join(map(printable, self.because))}"
        plan = plan_text(self.choices)
        return f"{text}, in this plan: {plan}" if plan else text

    @property
    def value_text(self) -> str:
        """The value as text, with an open end where a number has none.

        >>> w = Workbench()
        >>> x = w.number("x", 3)
        >>> x.ask().value_text
        '3..'
        """
        return value_text(self.value)


def value_text(value: Left) -> str:
    """What is left for a cell, as text."""
    if isinstance(value, (bool, int, str)):
        return printable(point_text(value))
    if isinstance(value, Span) and value.low != value.high:
        low, high = ends_of(value)
        return f"{'' if low is None else low}..{'' if high is None else high}"
    return printable(str(value))


def plan_text(choices: Mapping[str, object]) -> str:
    """What the choices stand on, as text."""
    return ", ".join(
        f"{printable(choice)}: {printable(_alternative(chosen))}"
        for choice, chosen in choices.items()
    )


def _alternative(chosen: object) -> str:
    return point_text(chosen) if isinstance(chosen, bool) else str(chosen)


def numbers_left(span: Span) -> tuple[Span | int, int | None, int | None]:
    """What is left for a number, and its ends, None where nothing is known."""
    low, high = span.low, span.high
    if low == high:
        return low, low, low
    return span, None if low == -MOST_NUMBER else low, None if high == MOST_NUMBER else high


def ends_of(value: Left) -> tuple[int | None, int | None]:
    """The ends of a number, None where nothing is known."""
    if isinstance(value, Span):
        low = None if value.low == -MOST_NUMBER else value.low
        return low, None if value.high == MOST_NUMBER else value.high
    if isinstance(value, int) and not isinstance(value, bool):
        return value, value
    return None, None


@dataclass(eq=False)
class Conflict(Exception):
    """What is believed can't all hold.

    `premises` are premises that can't all hold together with what holds always, none of which can
    be left out; there are none where what holds always can't hold by itself. `says` has what each
    states, and `notes` what else is known of it, as a value beyond 10^18.
    """

    premises: tuple[str, ...]
    says: Mapping[str, str] = field(default_factory=dict)
    notes: tuple[str, ...] = ()

    def __str__(self) -> str:
        if not self.premises:
            text = "what holds always can't hold by itself"
        elif len(self.premises) == 1:
            text = f"{printable(self.premises[0])} can't hold"
        else:
            text = f"{', '.join(map(printable, self.premises))} can't all hold"
        lines = [text, *(f"  {printable(name)}: {said}" for name, said in self.says.items())]
        return "\n".join([*lines, *(f"  ({note})" for note in self.notes)])


class NotSettled(Exception):
    """The run was cut, by its limit or the seconds that it had, before it was found whether what is
    believed fits together. The next question goes on from there."""
