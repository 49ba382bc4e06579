"""What the examples of puzzles answer, beside plain search and what is known of these puzzles."""

import re
from collections.abc import Callable
from itertools import combinations, permutations
from typing import Any

from examples import conflicts_in, ran, repairs_in, repairs_told, replies, tables
from plainly import Names, Rule, conflicts_and_repairs, differing, fits, solutions
from wide_puzzles import EASY, HARD
from wide_puzzles import solutions as filled

FIVE = range(1, 6)

# --- the five tenants ---

TENANTS = ("Baker", "Cooper", "Fletcher", "Miller", "Smith")
TOLD: dict[str, Callable[..., object]] = {
    "Baker isn't at the top": lambda b, c, f, m, s: b != 5,
    "Cooper isn't at the bottom": lambda b, c, f, m, s: c != 1,
    "Fletcher is at neither end": lambda b, c, f, m, s: f not in (1, 5),
    "Miller is above Cooper": lambda b, c, f, m, s: m > c,
    "Smith isn't next to Fletcher": lambda b, c, f, m, s: abs(s - f) != 1,
    "Fletcher isn't next to Cooper": lambda b, c, f, m, s: abs(f - c) != 1,
}
POSTMAN: dict[str, Callable[..., object]] = {
    "the postman: Baker is above Miller": lambda b, c, f, m, s: m < b
}


def floors(told: Names) -> list[tuple[int, ...]]:
    """On which floors the tenants may live where this holds."""
    tests = {**TOLD, **POSTMAN}
    return [each for each in permutations(FIVE) if all(tests[one](*each) for one in told)]


def test_the_tenants() -> None:
    printed = ran("puzzles/dwelling").printed
    every = frozenset(TOLD)
    assert floors(every) == [(3, 2, 4, 5, 1)]
    [[row]] = tables(printed, *TENANTS)
    assert tuple(int(row[name]) for name in TENANTS) == (3, 2, 4, 5, 1)
    shown = {
        told: int(count) for count, told in re.findall(r"^(\d+) without: (.*)$", printed, re.M)
    }
    assert shown == {told: len(floors(every - {told})) for told in TOLD}
    repairs_told(
        printed,
        [*TOLD, *POSTMAN],
        lambda some: bool(floors(some)),
        lambda name: 0.5 if name in POSTMAN else 1,
    )


def test_the_tenants_by_choices() -> None:
    """Floors are tried from below, so it is the first list in order that is answered."""
    said = replies("puzzles/dwelling")
    shown = [said[f"ask {name.lower()}"] for name in TENANTS]
    assert [each[0][-1] for each in shown] == ["3", "2", "4", "5", "1"]
    fourth = [each for each in floors(frozenset(TOLD)) if each[3] == 4]
    assert not fourth and said["ask miller"][1].startswith("contradiction: ")
    first = [each for each in floors(frozenset({*TOLD} - {"Cooper isn't at the bottom"}))]
    wanted = next(each for each in first if each[3] == 4)
    assert said["ask miller"][2] == "miller = f4"
    assert [shown[at][-1] for at in (1, 4)] == [f"cooper = f{wanted[1]}", f"smith = f{wanted[4]}"]


# --- houses in a row ---


def same(one: str, other: str) -> Rule:
    return Rule((one, other), lambda x, y: x == y)


def near(one: str, other: str) -> Rule:
    return Rule((one, other), lambda x, y: abs(x - y) == 1)


def at(name: str, house: int) -> Rule:
    return Rule((name,), lambda x: x == house)


ZEBRA_KINDS = """
Englishman Spaniard Ukrainian Norwegian Japanese
red green ivory yellow blue
dog snails fox horse zebra
coffee tea milk juice water
OldGold Kools Chesterfield LuckyStrike Parliament
"""
WITH = """
Englishman red, Spaniard dog, coffee green, Ukrainian tea, OldGold snails, Kools yellow,
LuckyStrike juice, Japanese Parliament
"""
ZEBRA = {
    **{" with ".join(each.split()): same(*each.split()) for each in WITH.split(",")},
    "Chesterfield next to fox": near("Chesterfield", "fox"),
    "Kools next to horse": near("Kools", "horse"),
    "Norwegian next to blue": near("Norwegian", "blue"),
    "green right of ivory": Rule(("green", "ivory"), lambda x, y: x == y + 1),
    "milk in the middle": at("milk", 3),
    "Norwegian at the left end": at("Norwegian", 1),
}
LEFT = {"zebra left of water": Rule(("zebra", "water"), lambda x, y: x < y)}


def houses(kinds: str, rules: list[Rule]) -> list[dict[str, Any]]:
    """In which houses all may be, two ways at the most."""
    names = kinds.split()
    lines = [line.split() for line in kinds.strip().split("\n")]
    every = [rule for line in lines for rule in differing(line)] + rules
    found = solutions({name: FIVE for name in names}, every)
    return [each for each, _ in zip(found, range(2))]


def test_the_zebra() -> None:
    printed = ran("puzzles/zebra").printed
    [only] = houses(ZEBRA_KINDS, [*ZEBRA.values()])
    assert printed.startswith("1 plan, no others:\n")
    for house, *names in re.findall(r"^(\d) (\w+) (\w+) (\w+) (\w+) (\w+)$", printed, re.M):
        assert [only[name] for name in names] == [int(house)] * 5
    assert "The Norwegian drinks water, and the Japanese has the zebra." in printed
    [[conflict]] = conflicts_in(printed)
    tests = {**ZEBRA, **LEFT}
    assert not houses(ZEBRA_KINDS, [tests[name] for name in conflict])
    for name in conflict:
        assert houses(ZEBRA_KINDS, [tests[other] for other in conflict if other != name]), name


def test_einstein() -> None:
    """The German has the fish, as everyone knows; and what follows before anything is tried."""
    kinds = """
    brit swede dane norwegian german
    red green white yellow blue
    dog bird cat horse fish
    tea coffee milk beer water
    pallmall dunhill blend bluemaster prince
    """
    together = "brit red, swede dog, dane tea, green coffee, pallmall bird, yellow dunhill"
    together += ", bluemaster beer, german prince"
    rules = [same(*each.split()) for each in together.split(",")]
    beside = "blend cat, horse dunhill, norwegian blue, blend water"
    rules += [near(*each.split()) for each in beside.split(",")]
    rules += [Rule(("green", "white"), lambda x, y: x + 1 == y), at("milk", 3), at("norwegian", 1)]
    [only] = houses(kinds, rules)
    said = replies("puzzles/einstein")
    assert only["fish"] == only["german"]
    assert said["ask fish"][1:] == [f"fish = h{only['fish']}"]
    assert said["ask german"] == [f"german = h{only['german']}"]
    assert said["ask blue"] == [f"blue = h{only['blue']}"]
    assert said["ask yellow"] == [f"yellow = h{only['yellow']}"]
    assert f"h{only['fish']}" in said["ask fish"][0]


# --- letters, colours, queens and digits ---


def sums(least: dict[str, int]) -> list[dict[str, int]]:
    """All digits by which SEND and MORE are MONEY, where letters are no less than these."""
    found = []
    for s, e, n, d in permutations(range(10), 4):
        for m, o, r in permutations({*range(10)} - {s, e, n, d}, 3):
            both = 1000 * (s + m) + 100 * (e + o) + 10 * (n + r) + d + e
            money = 10_000 * m + 1000 * o + 100 * n + 10 * e
            y = both - money
            if 0 <= y <= 9 and y not in (s, e, n, d, m, o, r):
                found.append(dict(S=s, E=e, N=n, D=d, M=m, O=o, R=r, Y=y))
    return [each for each in found if all(each[letter] >= low for letter, low in least.items())]


def test_send_more_money() -> None:
    printed = ran("puzzles/money").printed
    [only] = sums({"S": 1, "M": 1})
    [[row]] = tables(printed, *"SENDMORY")
    assert {letter: int(digit) for letter, digit in row.items()} == only
    assert "\n9567 + 1085 = 10652\n" in printed
    assert printed.endswith(f"\n{len(sums({'S': 1}))} plans, no others:\n")
    [rows] = tables(printed, "cell", "value", "because of")
    for row in rows:
        low, _, high = row["value"].partition("..")
        assert int(low) <= only[row["cell"]] <= int(high or low)


BORDERS = [
    tuple(each.split())
    for each in """
    WA NT, WA SA, NT SA, NT Queensland, SA Queensland, SA NSW, SA Victoria, Queensland NSW,
    NSW Victoria
    """.split(
        ","
    )
]
STATES = ("WA", "NT", "SA", "Queensland", "NSW", "Victoria", "Tasmania")


def painted(borders: list[tuple[str, ...]], colours: str) -> list[dict[str, str]]:
    """All ways to colour the states so that the two on each of these borders differ."""
    rules = [Rule(border, lambda one, other: one != other) for border in borders]
    return [*solutions({state: colours.split() for state in STATES}, rules)]


def test_a_map() -> None:
    printed = ran("puzzles/map").printed
    [rows] = tables(printed, *STATES)
    ways = [each for each in painted(BORDERS, "red green blue") if each["SA"] == "red"]
    assert len(rows) == len(ways) == 6 and all(way in rows for way in ways)
    by_name = {" by ".join(border): border for border in BORDERS}
    conflicts, repairs = conflicts_and_repairs(
        by_name, lambda some: bool(painted([by_name[name] for name in some], "red green"))
    )
    assert conflicts_in(printed) == [conflicts]
    cheapest = min(repairs, key=len)
    assert sum(len(each) == len(cheapest) for each in repairs) == 1
    said = f"the cheapest is {' and '.join(sorted(cheapest))}"
    assert f"\n{len(repairs)} repairs, no others: {said}\n" in printed


def test_a_map_by_choices() -> None:
    """Colours are tried in order, so it is the first list in order that is answered; and in each
    way Western Australia has the colour of Victoria."""
    said, names = replies("puzzles/map"), ["red", "green", "blue"]
    ways = painted(BORDERS, "red green blue")
    first = min(ways, key=lambda way: [names.index(way[state]) for state in STATES])
    taken = [f"of_{state.lower()}={names.index(first[state]) + 1}" for state in STATES]
    assert said["worldview"] == [f"in: {' '.join(taken)}"]
    assert all(way["WA"] == way["Victoria"] for way in ways)
    assert said["ask wa"] == ["wa = green", "contradiction: woods sand"]
    assert said["ask victoria"] == ["victoria = red"]


def boards() -> list[tuple[int, ...]]:
    """All boards of eight queens, by the row of each column."""
    return [
        rows
        for rows in permutations(range(1, 9))
        if all(abs(rows[x] - rows[y]) != y - x for x, y in combinations(range(8), 2))
    ]


def test_queens() -> None:
    printed, ways = ran("puzzles/queens").printed, boards()
    assert len(ways) == 92 and printed.startswith("92 plans, no others:\n")
    drawn = re.findall(r"^\d ([Q. ]+)$", printed, re.M)
    assert tuple(8 - [row[2 * x] for row in drawn].index("Q") for x in range(8)) in ways
    stands = {"white": (0, 1), "black": (1, 4), "red": (7, 5)}

    def left(some: Names) -> list[tuple[int, ...]]:
        return [
            way for way in ways if all(way[x] == row for x, row in map(stands.__getitem__, some))
        ]

    conflicts, repairs = conflicts_and_repairs(stands, lambda some: bool(left(some)))
    assert conflicts_in(printed) == [conflicts]
    assert [set(each) for each in repairs_in(printed)] == [repairs]
    [rows] = tables(printed, *"abcdefgh")
    given_up = next(iter(repairs_in(printed)[0]))
    shown = [tuple(int(row[column]) for column in "abcdefgh") for row in rows]
    assert sorted(shown) == left(frozenset(stands) - given_up)


def test_sudokus() -> None:
    printed = ran("puzzles/sudoku").printed
    shown = ["".join(row.split()) for row in re.findall(r"^ +(\d(?: \d){8})$", printed, re.M)]
    for given, place in ((EASY, 0), (HARD[2], 9)):
        assert [*filled(given)] == ["".join(shown[place : place + 9])]
    assert "easy: 81 of 81 digits follow without a try, and there is one solution\n" in printed
    assert re.search(r"^hard: \d\d of 81 digits follow .* one solution$", printed, re.M)
    # (of the given digits that are named all are needed: they are the eight others, each once)
    found = re.search(r"^E5 = (\d) because of (.*)$", printed, re.M)
    assert found
    named = re.findall(r"([A-I])(\d) is given", found[2])
    digits = [EASY[9 * "ABCDEFGHI".index(row) + int(column) - 1] for row, column in named]
    assert sorted([*digits, found[1]]) == [*"123456789"]
    for row, column in named:
        assert row == "E" or column == "5" or (row in "DEF" and column in "456")


def test_a_search_that_finds_nothing() -> None:
    """The plain search itself: three of two colours can't differ, two can, in two ways."""
    assert not fits({"a": "rg", "b": "rg", "c": "rg"}, differing("abc"))
    assert len([*solutions({"a": "rg", "b": "rg"}, differing("ab"))]) == 2
