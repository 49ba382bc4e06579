"""The small parts of a search: rooms in cases, what covers a room, and conflicts made small."""

from itertools import combinations, permutations, product

import pytest

from propbench import Session, Workbench
from propbench.model.shrinking import shrunk
from propbench.questions.checker import covers
from propbench.questions.rooms import (
    NameRoom,
    NumberRoom,
    Room,
    around,
    choices_in,
    digits_of,
    halves,
    values_of,
)

ENDS = [(low, high) for low in range(-2, 6) for high in range(low, 6)]


def numbers_in(rooms: list[Room]) -> list[int]:
    """All numbers of some rooms, in order."""
    return sorted(
        n for room in rooms if isinstance(room, NumberRoom) for n in range(room.low, room.high + 1)
    )


def test_cases_have_each_number_once() -> None:
    for low, high in ENDS:
        room, wanted = NumberRoom(low, high), list(range(low, high + 1))
        assert len(room) == len(wanted) and numbers_in(values_of(room)) == wanted
        for value in wanted:
            assert numbers_in(around(room, str(value))) == wanted
            for last in range(value, high + 1):
                parts = halves(room, NumberRoom(value, last))
                assert numbers_in(parts) == wanted
                # (both are smaller, where what is held is more than one number)
                assert value == last or all(len(part) < len(room) for part in parts)


def test_cases_have_each_name_once() -> None:
    for count in range(2, 20):
        room = NameRoom(tuple(f"n{number}" for number in range(count)))
        for some in ([room.names[0]], [room.names[-1]], room.names[: count // 2]):
            parts = [*around(room, some[0])], halves(room, NameRoom((*some, room.names[-1])))
            for each in parts:
                names = [name for part in each if isinstance(part, NameRoom) for name in part.names]
                assert sorted(names) == sorted(room.names)
        chosen = choices_in(room)
        assert chosen
        sides = [[set(side.strip("{}").split()) for side in choice] for choice in chosen]
        found = [set.intersection(*picked) for picked in product(*sides)]
        assert sorted(name for each in found for name in each) == sorted(room.names)


def test_digits_tell_numbers_apart() -> None:
    for size in (2, 8, 9, 64, 65, 512, 513):
        needed = digits_of(NumberRoom(5, 4 + size))
        assert 8**needed >= size > 8 ** (needed - 1)


def test_what_covers_a_room() -> None:
    for low, high in ENDS:
        for parts in combinations(ENDS, 2):
            rooms = [range(first, last + 1) for first, last in parts]
            there = {n for first, last in parts for n in range(first, last + 1)}
            assert covers(rooms, range(low, high + 1)) is (set(range(low, high + 1)) <= there)
    no, yes = frozenset(["no"]), frozenset(["yes"])
    assert covers([no, yes], no | yes) and not covers([no], no | yes)


@pytest.mark.parametrize("found", permutations("abc"))
def test_what_is_needless_is_left_out(found: tuple[str, ...]) -> None:
    """Of three premises two contradict each other; which are believed is as it was."""
    with Session() as session:
        session.send_all(["cell x span", "cell y span", "tell a y 1", "tell b x 1", "tell c x 2"])
        assert set(shrunk(session, ["a", "b", "c"], found)) == {"b", "c"}
        assert str(session.send("worldview")).startswith("contradiction")
        session.send("kick c")
        assert str(session.send("worldview")) == "in: a b\nout: c"


def test_large_numbers_are_tried_in_halves() -> None:
    """Two that are the same have an even sum: of an odd one no value is left, which runs alone
    don't find. (More values than choices have digits for.)"""
    for total, most in ((150_000_000, 75_000_000), (150_000_001, None)):
        with Workbench() as w:
            x, y = w.number("x", 0, 10**8), w.number("y", 0, 10**8)
            w.require(x == y)
            w.require(x + y == total)
            assert x.ask().low == total - 10**8
            best = w.greatest(x)
            assert best.proved and best.value == most
            assert best.certificate.check()
