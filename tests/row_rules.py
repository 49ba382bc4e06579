#!/usr/bin/python3
"""The rules of prop_rows on small informations, and the compounds of its prelude on drawn ones,
against plain enumeration of points.

usage: tests/row_rules.py PROGRAM

PROGRAM is a workbench with the rules of prop_rows and its prelude. What a rule has to answer is
found from which points belong together alone, as tests/wide_rules.py does. The last line is
`row rules: N passed, M failed`; the status is 0 where none failed.
"""
import os
import sys
from itertools import islice
from typing import Callable, Iterator

from case import Case, Check
from wide_rules import BOUND, FEW, NUMBERS, OPEN, PROGRAM, SET, SYMBOL, Compound, Info
from wide_rules import Points, Rule, counted, last_of, look_at_all, over_propwide, some, spans

STEP = 10
ONE: list[Info] = [frozenset([number]) for number in range(-3, 4)]
# numbers of entries, some of which there are not
YES: list[Info] = [frozenset(["yes"])]
NO: list[Info] = [frozenset(["no"])]
AT: list[Info] = [frozenset(range(low, high + 1)) for low in range(4) for high in range(low, 5)]

# ---- which points belong together


def total(*pairs: int) -> int:
    return sum(c * x for c, x in zip(pairs[::2], pairs[1::2]))


def summed(*pairs: int) -> Points:
    return [total(*pairs)]


def shared(z: int, c: int) -> Points:
    return [x for x in NUMBERS if z == c * x]


def picked(i: int, *row: int) -> Points:
    return [row[i - 1]] if 1 <= i <= len(row) else []


def numbered(y: int, i: int, *row: int) -> Points:
    return [i] if y in picked(i, *row) else []


def entered(i: int, j: int, y: int) -> Points:
    return [y] if i == j else NUMBERS


def greatest(*xs: int) -> Points:
    return [max(xs)]


def least(*xs: int) -> Points:
    return [min(xs)]


def greatest_back(z: int, *others: int) -> Points:
    most = max((-BOUND, *others))
    return [z] if most < z else [-BOUND, z] if most == z else []


def least_back(z: int, *others: int) -> Points:
    fewest = min((BOUND, *others))
    return [z] if z < fewest else [z, BOUND] if fewest == z else []


def truths(many: int, known: int) -> tuple[list[Info], ...]:
    """What is tried of so many truths, of which the first are known, two of these to be `yes`."""
    return (*(YES,) * 2, *(NO,) * (known - 2), *(OPEN,) * (many - known))


EXTREMES = [
    ("maximizer", "max_back", greatest, greatest_back),
    ("minimizer", "min_back", least, least_back),
]
SMALL: list[Info] = [frozenset([1]), frozenset([0, 1, 2]), frozenset([2, 3])]

RULES = [
    Rule("linear_sum1", "span span span", (spans(3), spans(3)), summed),
    Rule("linear_sum2", "span " * 5, (FEW,) * 4, summed),
    Rule(
        "linear_sum3",
        "span " * 7,
        (ONE[2:4], FEW[1:3], ONE[4:6], FEW[2:4], FEW[:2], FEW[3:]),
        summed,
    ),
    Rule("linear_term1", "span span span", (spans(6), ONE), shared),
    Rule("element_value1", "span span span", (AT, FEW), picked),
    Rule("element_value2", "span span span span", (AT, FEW, FEW), picked),
    Rule("element_value2", "span d d d", (AT, SET, SET), picked),
    Rule("element_value3", "span d d d d", (AT, *(SET[:-1],) * 3), picked),
    Rule("element_value2", "span symbol symbol symbol", (AT, SYMBOL, SYMBOL), picked),
    Rule("element_number2", "span span span span span", (FEW, [*AT, None], FEW, FEW), numbered),
    Rule("element_number2", "d span d d span", (SET, AT, SET, SET), numbered),
    Rule(
        "element_number2", "symbol span symbol symbol span", (SYMBOL, AT, SYMBOL, SYMBOL), numbered
    ),
    Rule("element_entry", "span span span span", (AT, AT, FEW), entered),
    *[
        Rule(f"counter{many}", "truth " * many + "span", truths(many, many - 4), counted)
        for many in (9, 10, 63)
    ],
    *[
        Rule(
            f"count_back{many}",
            "span " + "truth " * many,
            ([frozenset([2]), frozenset([5, 6, 7]), None], *truths(many - 1, many - 4)),
            last_of,
        )
        for many in (9, 63)
    ],
    *[
        Rule(f"{name}{many}", "span " * (many + 1), (tried,) * many, whole)
        for name, _, whole, _ in EXTREMES
        for many, tried in [(1, some(3)), (2, some(2)), (3, SMALL), (4, SMALL[:2])]
    ],
    *[
        Rule(f"{name}{many}", "span " * (many + 1), (spans(4), *(SMALL,) * (many - 1)), back)
        for _, name, _, back in EXTREMES
        for many in (1, 2, 3)
    ],
    *[
        Rule(f"{name}63", "span " * 64, (ONE,) * 2 + (ONE[:1],) * 61, whole)
        for name, _, whole, _ in EXTREMES
    ],
]


def linear(*cells: int) -> bool:
    return total(*cells[:-1]) == cells[-1]


def element(i: int, *cells: int) -> bool:
    return cells[-1] in picked(i, *cells[:-1])


COMPOUNDS = [
    *[Compound(f"linear{many}", "span " * (2 * many + 1), linear) for many in (1, 2)],
    *[Compound(f"element{many}", "span " * (many + 2), element) for many in (2, 3)],
    Compound("count9", "truth " * 9 + "span", lambda *it: it[:-1].count("yes") == it[-1]),
    *[
        Compound(f"{name}{many}", "span " * (many + 1), lambda *it, of=of: of(it[:-1]) == it[-1])
        for name, of in [("max", max), ("min", min)]
        for many in (3, 4)
    ],
]


def ends(name: str, lines: str, wanted: str) -> Case:
    """A session over lines, of which the last is a question with this reply."""
    sent = lines.split("; ")
    replies = ["ok"] * (len(sent) - 1) + [wanted]
    as_bytes: Callable[[list[str]], bytes] = lambda it: "".join(f"{x}\n" for x in it).encode()
    return Case(f"row rules: {name}", as_bytes(sent), as_bytes(replies))


def long_row(name: str, many: int, wanted: str) -> Case:
    """As many pairs 1 x as there can be, of numbers as large as there can be."""
    xs = [f"x{at}" for at in range(many)]
    lines = ["cell one span", "fix one 1", "cell z span", *(f"cell {x} span" for x in xs)]
    lines += [f"fix {x} {-BOUND if at % 2 else BOUND}" for at, x in enumerate(xs)]
    lines += [f"attach {name}{many} {' '.join(f'one {x}' for x in xs)} z", "ask z"]
    return ends(f"{name}{many} at the ends of the range", "; ".join(lines), wanted)


AT_THE_ENDS = [
    # (a sum is cut off at the range once all is added, and not before)
    long_row("linear_sum", 32, "z = 0"),
    long_row("linear_sum", 31, f"z = {BOUND}"),
    long_row("linear_sum", 2, "z = 0"),
]


def enumerated() -> Iterator[Case]:
    for rule in RULES:
        yield from rule.cases()
    for compound in COMPOUNDS:
        yield from compound.cases()


def cases() -> Iterator[Case]:
    yield from AT_THE_ENDS
    yield from enumerated()


def built() -> Iterator[Check]:
    """The rows at the ends of the range over propwide, where it is built, and one of each STEP
    other cases.
    """
    if os.path.exists(PROGRAM):
        yield from map(over_propwide, AT_THE_ENDS)
        yield from map(over_propwide, islice(enumerated(), 0, None, STEP))


def main(words: list[str]) -> int:
    return look_at_all(words, __doc__, cases, "row rules")


if __name__ == "__main__":
    sys.exit(main(sys.argv[1:]))
