"""Rooms: the values that are left for a cell, and how they are parted into cases.

A room is read from a reply, and written as a line says it: `3..5`, `{red blue}`.
"""

from collections.abc import Sequence
from dataclasses import dataclass

from propbench.values import Elements, Held, Span, Symbol
from propbench.words import MOST_NUMBER, MOST_SIDES

# A number with more values than this is not chosen digit by digit, but halved.
_MOST_CHOSEN = MOST_SIDES**7


@dataclass(frozen=True)
class NumberRoom:
    """The whole numbers from `low` to `high`."""

    low: int
    high: int

    def __str__(self) -> str:
        return str(Span(self.low, self.high))

    def __len__(self) -> int:
        return self.high - self.low + 1


@dataclass(frozen=True)
class NameRoom:
    """Elements of a domain, or `no` and `yes`."""

    names: tuple[str, ...]

    def __str__(self) -> str:
        return str(Elements(self.names))

    def __len__(self) -> int:
        return len(self.names)


Room = NumberRoom | NameRoom
ALL_NUMBERS = NumberRoom(-MOST_NUMBER, MOST_NUMBER)


def beyond(room: NumberRoom) -> tuple[NumberRoom, NumberRoom]:
    """The numbers below those of a room, and those above."""
    return NumberRoom(-MOST_NUMBER, room.low - 1), NumberRoom(room.high + 1, MOST_NUMBER)


def whole_room(elements: Sequence[str] | None, kind: str) -> Room | None:
    """All values that a cell of this kind may have; None for a symbol."""
    if kind == "span":
        return ALL_NUMBERS
    return None if kind == "symbol" or elements is None else NameRoom(tuple(elements))


def room_left(held: Held, whole: Room | None) -> Room | None:
    """The room that a reply leaves of all that a cell may have."""
    if isinstance(held, Span):
        return NumberRoom(held.low, held.high)
    return NameRoom(held.names) if isinstance(held, Elements) else whole


def single(held: Held) -> str | None:
    """The one value that a reply leaves, as a line says it; None where there are more."""
    is_open = isinstance(held, Span) and held.low != held.high
    if is_open or isinstance(held, Elements) and len(held.names) > 1:
        return None
    return str(held) if isinstance(held, Span | Elements | Symbol) else None


def choices_in(room: Room) -> list[list[str]] | None:
    """The sides of choices that together leave one value of the room: of its values, or of rows and
    columns of names. None for more numbers, which are chosen by digits."""
    if isinstance(room, NumberRoom):
        if len(room) > MOST_SIDES:
            return None
        return [[str(number) for number in range(room.low, room.high + 1)]]
    names = room.names
    if len(names) <= MOST_SIDES:
        return [list(names)]
    rows = [names[i : i + MOST_SIDES] for i in range(0, len(names), MOST_SIDES)]
    columns = [names[i::MOST_SIDES] for i in range(MOST_SIDES)]
    return [[str(Elements(part)) for part in parts] for parts in (rows, columns)]


def digits_of(room: Room) -> int:
    """How many digits to the base of 8 tell the numbers of a room apart; 0 for too many numbers."""
    return (
        0 if len(room) > _MOST_CHOSEN else next(n for n in range(8) if MOST_SIDES ** n >= len(room))
    )


def values_of(room: Room) -> list[Room]:
    """Each value of a room by itself."""
    if isinstance(room, NameRoom):
        return [NameRoom((name,)) for name in room.names]
    return [NumberRoom(number, number) for number in range(room.low, room.high + 1)]


def halves(room: Room, held: Room) -> list[Room]:
    """The room in two parts, between the values that are held."""
    if isinstance(room, NumberRoom) and isinstance(held, NumberRoom):
        middle = (max(room.low, held.low) + min(room.high, held.high)) // 2
        return [NumberRoom(room.low, middle), NumberRoom(middle + 1, room.high)]
    assert isinstance(room, NameRoom) and isinstance(held, NameRoom)
    first = held.names[: len(held) // 2]
    return [NameRoom(first), NameRoom(tuple(name for name in room.names if name not in first))]


def around(room: Room, value: str) -> list[Room]:
    """The room in parts: one value of it, and what lies below and above, or beside."""
    if isinstance(room, NameRoom):
        return [NameRoom((value,)), NameRoom(tuple(name for name in room.names if name != value))]
    point = int(value)
    parts = [
        NumberRoom(point, point),
        NumberRoom(room.low, point - 1),
        NumberRoom(point + 1, room.high),
    ]
    return [part for part in parts if part.low <= part.high]
