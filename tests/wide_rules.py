#!/usr/bin/python3
"""Each rule beside the kit's on small informations, and compounds of the prelude on drawn ones,
against plain enumeration of points, and the examples of docs/WIDE.md.

usage: tests/wide_rules.py PROGRAM

PROGRAM is a workbench with the rules of prop_wide beside the kit's, and with its prelude. What a
rule has to answer is found from which points belong together alone: the narrowest information that
holds each output that belongs to points of the inputs. A number of which nothing is known may be
any in range; of those the least, the greatest and the small ones are tried. The last line is
`wide rules: N passed, M failed`; the status is 0 where none failed.
"""
import os
import re
import sys
from dataclasses import dataclass
from itertools import chain, islice, product
from random import Random
from typing import Any, Callable, Iterable, Iterator, Optional, Protocol, Union

import rules
from case import Case, Check

TOP = os.path.dirname(os.path.dirname(os.path.realpath(__file__)))
PROGRAM = f"{TOP}/crates/propwide/out/propwide"
STEP = 10
BOUND = 10**18

Point = Union[int, str]
Info = Optional[frozenset[Point]]
Points = Iterable[Point]
# An information that is answered: a span by its two ends.
Answer = Union[Info, tuple[int, int]]

# (those of rules.py take any points)
Sheet: Any = rules.Sheet
Ends: Any = rules.Ends
text_of: Callable[[Any], str] = rules.text_of
spans: Callable[[int], Any] = rules.spans
subsets: Callable[[list[str]], list[frozenset[Point]]] = rules.subsets

NUMBERS = [-BOUND, 1 - BOUND, *range(-30, 31), BOUND - 1, BOUND]
TRUTHS, ELEMENTS, SYMBOLS = ["yes", "no"], ["e", "f", "g"], ["red", "blue"]
ALL: dict[str, list[Point]] = {
    "span": [*NUMBERS],
    "truth": [*TRUTHS],
    "d": [*ELEMENTS],
    "symbol": [*SYMBOLS],
}
CLASH: frozenset[Point] = frozenset()


@dataclass(frozen=True)
class Rule:
    """A procedure with the kinds of its inputs and its output, the informations that are tried at
    each input (None where nothing is known), and the outputs that belong to points of the inputs.
    """

    name: str
    kinds: str
    tried: tuple[list[Info], ...]
    outputs: Callable[..., Points]
    parameter: str = ""

    def answer(self, inputs: tuple[Info, ...]) -> Answer:
        """The narrowest information that holds each output, None where that is nothing."""
        *ins, out = self.kinds.split()
        left = [ALL[kind] if info is None else info for kind, info in zip(ins, inputs)]
        found = frozenset(output for points in product(*left) for output in self.outputs(*points))
        if out == "span":
            found = frozenset(it for it in found if isinstance(it, int) and abs(it) <= BOUND)
        if out == "d" and None in inputs[1:] and len(found) == len(ELEMENTS):
            return None
        return narrowest(out, found)

    def cases(self) -> Iterator[Case]:
        """A session of all calls that don't clash, and one for each that does."""
        title = f"{self.name} {self.kinds}{self.parameter}"
        sheet = Sheet("domain d e f g")
        for inputs in product(*self.tried):
            found = self.answer(inputs)
            if found == CLASH:
                alone = Sheet("domain d e f g")
                alone.call(self.name, self.kinds, self.parameter, inputs, found)
                yield alone.case(f"{title} clashes at {' '.join(map(text_of, inputs))}")
            else:
                sheet.call(self.name, self.kinds, self.parameter, inputs, found)
        yield sheet.case(title)


def narrowest(kind: str, found: frozenset[Point]) -> Answer:
    """The information that a cell of the kind can have, where it may be any of these points."""
    if kind == "span" and found:
        numbers = [it for it in found if isinstance(it, int)]
        ends = (min(numbers), max(numbers))
        if ends == (-BOUND, BOUND):
            return None
        return found if len(numbers) == 1 else Ends(ends)
    if kind == "truth" and len(found) == 2:
        return None
    return None if kind == "symbol" and len(found) > 1 else found


# ---- which points belong together


def max_back(z: int, y: int) -> Points:
    return [x for x in {z, *([-BOUND] if y == z else [])} if max(x, y) == z]


def min_back(z: int, y: int) -> Points:
    return [x for x in {z, *([BOUND] if y == z else [])} if min(x, y) == z]


def chosen(t: str, a: Point, b: Point) -> Points:
    return [a if t == "yes" else b]


def decided(a: Point, b: Point, o: Point) -> Points:
    return [t for t in TRUTHS if o == (a if t == "yes" else b)]


def counted(*truths: str) -> Points:
    return [truths.count("yes")]


def last_of(n: int, *truths: str) -> Points:
    return [t for t in TRUTHS if n == [*truths, t].count("yes")]


def squares(scale: int) -> Callable[[int], Points]:
    def of(x: int) -> Points:
        near = x * x // scale
        return [y for y in range(near - 1, near + 3) if scale * (y - 1) < x * x < scale * (y + 1)]

    return of


def roots(scale: int) -> Callable[[int, int], Points]:
    return lambda y, x: [x] if scale * (y - 1) < x * x < scale * (y + 1) else []


def quotients(x: int, y: int) -> Points:
    return [x // y] if y else []


def remainders(y: int) -> Points:
    return [r for r in NUMBERS if y and r == r % y]


def divisors(r: int, y: int) -> Points:
    return [y] if y and r == r % y else []


# ---- what is tried


def some(most: int) -> list[Info]:
    return [*spans(most), None]


TRUTH: list[Info] = [*subsets(TRUTHS), None]
SET: list[Info] = [*[it for it in subsets(ELEMENTS) if len(it) < len(ELEMENTS)], None]
SYMBOL: list[Info] = [*[frozenset([it]) for it in SYMBOLS], None]
FEW: list[Info] = [frozenset(range(low, high)) for low, high in [(0, 1), (2, 3), (0, 3), (-1, 1)]]
OPEN: list[Info] = [frozenset(["yes"]), None]


def counts(most: int) -> list[Info]:
    return [
        None,
        *[
            frozenset(range(low, high + 1))
            for low in range(-1, most + 2)
            for high in range(low, most + 2)
        ],
    ]


RULES = [
    Rule("maximizer", "span span span", (some(3), some(3)), lambda x, y: [max(x, y)]),
    Rule("max_back", "span span span", (some(3), some(3)), max_back),
    Rule("minimizer", "span span span", (some(3), some(3)), lambda x, y: [min(x, y)]),
    Rule("min_back", "span span span", (some(3), some(3)), min_back),
    Rule("absoluter", "span span", (some(6),), lambda x: [abs(x)]),
    Rule("abs_back", "span span span", (some(4), some(4)), lambda y, x: [x] if abs(x) == y else []),
    Rule("chooser", "truth span span span", (TRUTH, [*FEW, None], [*FEW, None]), chosen),
    Rule("chooser", "truth d d d", (TRUTH, SET, SET), chosen),
    Rule("chooser", "truth symbol symbol symbol", (TRUTH, SYMBOL, SYMBOL), chosen),
    Rule("decider", "span span span truth", ([*FEW, None], [*FEW, None], [*FEW, None]), decided),
    Rule("decider", "d d d truth", (SET, SET, SET), decided),
    Rule("decider", "symbol symbol symbol truth", (SYMBOL, SYMBOL, SYMBOL), decided),
    *[Rule(f"counter{n}", "truth " * n + "span", (TRUTH,) * n, counted) for n in (1, 2, 3)],
    *[Rule(f"counter{n}", "truth " * n + "span", (OPEN,) * n, counted) for n in (4, 5, 6, 7, 8)],
    *[
        Rule(f"count_back{n}", "span " + "truth " * n, (counts(n), *(TRUTH,) * (n - 1)), last_of)
        for n in (1, 2, 3)
    ],
    *[
        Rule(
            f"count_back{n}",
            "span " + "truth " * n,
            ([frozenset([1]), frozenset([n]), None], *(OPEN,) * (n - 1)),
            last_of,
        )
        for n in range(4, 9)
    ],
    *[
        Rule("scaled_squarer", "span span", (spans(8),), squares(k), f" by {k}")
        for k in (1, 2, 3, 10)
    ],
    *[
        Rule("scaled_rooter", "span span span", (spans(5), some(4)), roots(k), f" by {k}")
        for k in (1, 2, 3, 10)
    ],
    Rule("quotienter", "span span span", (some(4), some(3)), quotients),
    Rule("remainderer", "span span", (some(5),), remainders),
    Rule("divisor_back", "span span span", (some(3), some(3)), divisors),
]

# ---- compounds


@dataclass(frozen=True)
class Compound:
    """A compound of the prelude with the kinds of its cells, and whether points belong together."""

    name: str
    kinds: str
    belong: Callable[..., Any]
    parameter: str = ""

    def drawn(self, chance: Random, single: bool) -> list[frozenset[Point]]:
        """An information for each cell, which leaves one point where it has to be single."""
        drawn: list[frozenset[Point]] = []
        for kind in self.kinds.split():
            low = chance.randint(-4, 6)
            wide = 0 if single else chance.choice([0, 1, 3])
            number: frozenset[Point] = frozenset(range(low, low + wide + 1))
            some = 1 if single else chance.choice([1, 2])
            truth: frozenset[Point] = frozenset(chance.sample(TRUTHS, some))
            drawn.append(number if kind == "span" else truth)
        return drawn

    def case(self, title: str, infos: list[frozenset[Point]]) -> Case:
        """A session that asks for each cell. No point that belongs there may be left out; and where
        each cell is one point, it is a contradiction just where these don't belong together.
        """
        cells = [f"c{at}" for at in range(len(infos))]
        lines = [f"cell {cell} {kind}" for cell, kind in zip(cells, self.kinds.split())]
        lines.append(f"attach {self.name} {' '.join(cells)}{self.parameter}")
        lines += [f"fix {cell} {text_of(info)}" for cell, info in zip(cells, infos)]
        lines += [f"ask {cell}" for cell in cells]
        found = [points for points in product(*infos) if self.belong(*points)]
        single = all(len(info) == 1 for info in infos)

        def wrong(output: bytes) -> Optional[str]:
            told = output.decode().splitlines()[-len(cells) :]
            if any(it.startswith("contradiction") for it in told):
                return f"it tells a contradiction where {found[0]} fits" if found else None
            if single and not found:
                return f"it tells no contradiction: {told}"
            for at, answer in enumerate(told):
                for points in found:
                    if not is_in(points[at], answer.removeprefix(f"c{at} = ")):
                        return f"{answer}, where {points} fits"
            return None

        return Case(f"{title}: {'; '.join(lines)}", as_bytes(lines), wrong)

    def cases(self) -> Iterator[Case]:
        chance = Random(self.name)
        for at in range(DRAWN):
            yield self.case(f"wide rules: {self.name} {at}", self.drawn(chance, at % 2 == 0))


def as_bytes(lines: list[str]) -> bytes:
    return "".join(line + "\n" for line in lines).encode()


def is_in(point: Point, answer: str) -> bool:
    """Whether an answer leaves a point."""
    if isinstance(point, str) or answer == "nothing":
        return answer == "nothing" or point in answer.strip("{}").split(" ")
    low, _, high = answer.partition("..")
    return int(low) <= point <= int(high or low)


def apart(s: int, l: int, u: int, m: int) -> bool:
    return not (u < s + l and s < u + m)


def divided(x: int, y: int, q: int, r: int) -> bool:
    return y != 0 and (q, r) == divmod(x, y)


def euclidean(x: int, y: int, q: int, r: int) -> bool:
    return x == y * q + r and 0 <= r < abs(y)


def soft(belong: Callable[..., Any]) -> Callable[..., Any]:
    return lambda t, *points: t == "no" or belong(*points)


def softened(compound: Compound) -> Compound:
    kinds = f"truth {compound.kinds}"
    return Compound(f"soft_{compound.name}", kinds, soft(compound.belong), compound.parameter)


S2, S3, S4 = "span span", "span span span", "span span span span"
HARD = [
    Compound("max", S3, lambda x, y, z: z == max(x, y)),
    Compound("min", S3, lambda x, y, z: z == min(x, y)),
    Compound("abs", S2, lambda x, y: y == abs(x)),
    Compound("if", f"truth {S3}", lambda t, a, b, o: o == (a if t == "yes" else b)),
    Compound("scaled_square", S2, lambda x, y: 3 * (y - 1) < x * x < 3 * (y + 1), " by 3"),
    Compound("quotient", S3, lambda x, y, q: y != 0 and q == x // y),
    Compound("remainder", S3, lambda x, y, r: y != 0 and r == x % y),
    Compound("atmost", S2, lambda x, y: x <= y),
    Compound("between", S3, lambda x, a, b: a <= x <= b),
    Compound("before", S3, lambda s, l, u: s + l <= u),
    Compound("apart", S4, apart),
]
COMPOUNDS = [
    *HARD,
    *map(softened, HARD),
    softened(Compound("sum", S3, lambda x, y, z: z == x + y)),
    softened(Compound("product", S3, lambda x, y, z: z == x * y)),
    softened(Compound("square", S2, lambda x, y: y == x * x)),
    softened(Compound("less", f"{S2} truth", lambda x, y, u: (u == "yes") == (x < y))),
    softened(Compound("alike", f"{S2} truth", lambda x, y, u: (u == "yes") == (x == y))),
    softened(Compound("not", "truth truth", lambda x, y: x != y)),
    Compound("divide", S4, divided),
    Compound("euclid_divide", S4, euclidean),
    Compound("euclid_quotient", S3, lambda x, y, q: euclidean(x, y, q, x - y * q)),
    Compound("euclid_remainder", S3, lambda x, y, r: y and 0 <= r < abs(y) and (x - r) % y == 0),
    Compound("gate", f"truth {S2}", lambda t, x, y: t == "no" or x == y),
    *[
        Compound(f"count{n}", "truth " * n + "span", lambda *it: it[:-1].count("yes") == it[-1])
        for n in range(1, 9)
    ],
]
DRAWN = 100

# ---- the examples of the page

KINDS = {"S": "span", "T": "truth", "A": "d"}


def rows() -> Iterator[list[str]]:
    """The rows of the page's tables, each as its cells."""
    with open(f"{TOP}/docs/WIDE.md", encoding="utf-8") as it:
        for line in it:
            if line.startswith("| `"):
                yield [cell.strip() for cell in line.strip().strip("|").split("|")]


def example(name: str, cells: str, stated: str, answer: str) -> Case:
    """A row as a session: the cells, what is stated of them, and what is asked of one."""
    by = re.search(r" by \S+", name)
    word = name.strip("`").split(" ")[0]
    kinds = [it.rsplit(" ", 1) for it in cells.split(", ")]
    names = " ".join(cell for cell, _ in kinds)
    lines = [
        "domain d p q r s",
        "relation r d d = p q ; p r",
        *(f"cell {cell} {KINDS[kind]}" for cell, kind in kinds),
    ]
    lines.append(f"attach {word} {names}{by[0].strip('`') if by else ''}")
    lines += [f"fix {it.replace(' = ', ' ')}" for it in stated.split(", ") if it]
    lines.append(f"ask {answer.split(' = ')[0]}" if " = " in answer else "settle")
    wanted = ["ok"] * (len(lines) - 1) + [
        answer if " = " in answer else "contradiction: no premise"
    ]
    sent, replies = ("".join(line + "\n" for line in it).encode() for it in (lines, wanted))
    return Case(f"wide rules: {word}: {stated}: {answer}", sent, replies)


def examples() -> Iterator[Case]:
    for name, cells, _, stated, answer in (row for row in rows() if len(row) == 5):
        yield example(name, cells, stated, answer)


def enumerated() -> Iterator[Case]:
    for rule in RULES:
        yield from rule.cases()
    for compound in COMPOUNDS:
        yield from compound.cases()


def cases() -> Iterator[Case]:
    yield from enumerated()
    yield from examples()


class Looked(Protocol):
    """What is looked at over a program."""

    @property
    def name(self) -> str:
        """What it is called."""

    def wrong(self, program: str, /) -> Optional[str]:
        """What is wrong with it, or None."""


def over_propwide(case: Looked) -> Check:
    """The case over propwide, whichever program it is looked at with."""
    return Check(case.name, lambda _: case.wrong(PROGRAM))


def where_built(cases: Callable[[], Iterable[Looked]]) -> Callable[[], Iterator[Check]]:
    """What yields the cases over propwide, where it is built."""
    return lambda: map(over_propwide, cases() if os.path.exists(PROGRAM) else ())


def built() -> Iterator[Check]:
    """The page's examples over propwide, where it is built, and one of each STEP other cases."""
    if os.path.exists(PROGRAM):
        yield from map(over_propwide, chain(examples(), islice(enumerated(), 0, None, STEP)))


def look_at_all(
    words: list[str], usage: Optional[str], cases: Callable[[], Iterable[Looked]], title: str
) -> int:
    """Looks at the cases over the program that the words name, and tells what is wrong. What is
    given back is a status."""
    if len(words) != 1 or words[0].startswith("-"):
        print(usage)
        return 0 if words == ["--help"] else 2
    passed = failed = 0
    for case in cases():
        wrong = case.wrong(os.path.abspath(words[0]))
        if wrong:
            failed += 1
            print(f"{case.name}: {wrong}")
        else:
            passed += 1
    print(f"{title}: {passed} passed, {failed} failed")
    return 1 if failed else 0


def main(words: list[str]) -> int:
    return look_at_all(words, __doc__, cases, "wide rules")


if __name__ == "__main__":
    sys.exit(main(sys.argv[1:]))
