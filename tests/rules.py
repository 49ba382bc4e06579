"""Each procedure of the kit on small informations, against plain enumeration of points.

An information is a frozenset of points, or None where nothing is known. What a procedure has to
answer is found from the equation or table of its points alone: the narrowest information that holds
each output of related points. Three do not answer that: `below` and `above` have answers without
end, and `divider` is not always narrowest; their formulas are in tests/formulas.py.
"""
import operator
from itertools import combinations, product
from typing import Any, Callable, Collection, Iterable, Iterator, Optional

import formulas
from case import Case, as_bytes

TRUTHS = ["yes", "no"]
ELEMENTS = ["e", "f", "g"]
PAIRED = ["u", "v"]
# A number, or the name of an element, a truth or a symbol.
Point = Any
Points = frozenset[Point]
CLASH: Points = frozenset()


def subsets(points: Collection[Point]) -> list[Points]:
    return [
        frozenset(it) for size in range(1, len(points) + 1) for it in combinations(points, size)
    ]


def spans(most: int) -> list[Points]:
    return [
        frozenset(range(low, high + 1))
        for low in range(-most, most + 1)
        for high in range(low, most + 1)
    ]


class Ends(tuple[int, int]):
    """A span by its two ends, where it has too many numbers to list."""


# What is known of a cell, or what a procedure answers.
Info = Optional[Points]
Answer = Callable[..., Info]


def ends_of(points: Collection[int]) -> tuple[int, int]:
    return (min(points), max(points))


def hull(numbers: Collection[int]) -> Points:
    return frozenset(range(min(numbers), max(numbers) + 1)) if numbers else CLASH


def outputs(of: Callable[..., Iterable[Point]], *inputs: Collection[Point]) -> Points:
    """What these points may come to, by a function from points to the outputs that belong to
    them."""
    return frozenset(output for points in product(*inputs) for output in of(*points))


def known(informations: Iterable[Info]) -> bool:
    return None not in informations


def on_numbers(of: Callable[..., Iterable[int]]) -> Answer:
    return lambda *inputs: hull(outputs(of, *inputs)) if known(inputs) else None


def products(scale: int) -> Answer:
    """The numbers that are less than one away from x * y in units of 1 / scale."""

    def of(x: int, y: int) -> list[int]:
        low, high = formulas.floor(x * y, scale), formulas.ceiling(x * y, scale)
        return [z for z in range(low - 1, high + 2) if scale * (z - 1) < x * y < scale * (z + 1)]

    return on_numbers(of)


def roots(y: Info, x: Info) -> Info:
    if y is None:
        return None
    return hull([v for v in (range(-20, 21) if x is None else x) if v * v in y])


def on_truths(of: Callable[..., Iterable[str]]) -> Answer:
    """A table of truths, in which a truth that is not known may be either."""

    def answer(*inputs: Info) -> Info:
        found = outputs(of, *[it or frozenset(TRUTHS) for it in inputs])
        return None if len(found) == 2 and not known(inputs) else found

    return answer


def said(truth: bool) -> list[str]:
    return ["yes" if truth else "no"]


def holds(truth: str) -> bool:
    return truth == "yes"


def back(of: Callable[[str, str], list[str]]) -> Callable[[str, str], list[str]]:
    """The table read backwards: the x for which `of` makes z from x and y."""
    return lambda z, y: [x for x in TRUTHS if of(x, y) == [z]]


def conjoined(x: str, y: str) -> list[str]:
    return said(holds(x) and holds(y))


def disjoined(x: str, y: str) -> list[str]:
    return said(holds(x) or holds(y))


def decided(of: Callable[[Point, Point], bool]) -> Answer:
    """What a comparison answers: the one truth that all points of both sides come to, if there
    is."""

    def answer(x: Info, y: Info) -> Info:
        if x is None or y is None:
            return None
        found = outputs(lambda u, v: said(of(u, v)), x, y)
        return found if len(found) == 1 else None

    return answer


compared, alike = decided(operator.lt), decided(operator.eq)


def apart(t: Info, x: Info, y: Info) -> Info:
    if t != frozenset(["no"]) or x is None or y is None or len(x) != 1:
        return None
    left = y - x
    return hull(left) if all(isinstance(it, int) for it in left) else left


def itself(x: Info) -> Info:
    return x


def passed(t: Info, x: Info) -> Info:
    return x if t == frozenset(["yes"]) else None


SPANS, WIDE, TRUTH, SET = spans(3), spans(10), subsets(TRUTHS), subsets(ELEMENTS)
SYMBOL = [frozenset([it]) for it in ["red", "blue"]]
POSITIVE = [span for span in WIDE if min(span) > -3 and max(span) < 17]

# The name, the kinds of inputs and output, the parameter, the informations for each input (and
# nothing), and what is answered.
RULES: list[tuple[str, str, str, list[list[Points]], Answer]] = [
    ("adder", "span span span", "", [SPANS, SPANS], on_numbers(lambda x, y: [x + y])),
    ("subtracter", "span span span", "", [SPANS, SPANS], on_numbers(lambda z, x: [z - x])),
    *[
        ("multiplier", "span span span", f" by {k}", [SPANS, SPANS], products(k))
        for k in (1, 2, 3, 4)
    ],
    ("squarer", "span span", "", [WIDE], on_numbers(lambda x: [x * x])),
    ("rooter", "span span span", "", [POSITIVE, SPANS], roots),
    ("lesser", "span span truth", "", [SPANS, SPANS], compared),
    ("comparer", "span span truth", "", [SPANS, SPANS], alike),
    ("comparer", "d d truth", "", [SET, SET], alike),
    ("comparer", "symbol symbol truth", "", [SYMBOL, SYMBOL], alike),
    ("parter", "truth span span span", "", [TRUTH, SPANS, SPANS], apart),
    ("parter", "truth d d d", "", [TRUTH, SET, SET], apart),
    ("parter", "truth symbol symbol symbol", "", [TRUTH, SYMBOL, SYMBOL], apart),
    ("copier", "span span", "", [SPANS], itself),
    ("copier", "d d", "", [SET], itself),
    ("copier", "symbol symbol", "", [SYMBOL], itself),
    ("passer", "truth span span", "", [TRUTH, SPANS], passed),
    ("passer", "truth symbol symbol", "", [TRUTH, SYMBOL], passed),
    ("inverter", "truth truth", "", [TRUTH], on_truths(lambda x: said(not holds(x)))),
    ("conjoiner", "truth truth truth", "", [TRUTH, TRUTH], on_truths(conjoined)),
    ("conjoin_back", "truth truth truth", "", [TRUTH, TRUTH], on_truths(back(conjoined))),
    ("disjoiner", "truth truth truth", "", [TRUTH, TRUTH], on_truths(disjoined)),
    ("disjoin_back", "truth truth truth", "", [TRUTH, TRUTH], on_truths(back(disjoined))),
]


def text_of(points: Info | Ends) -> str:
    """An information as the workbench writes it."""
    if points is None:
        return "nothing"
    if all(isinstance(it, int) for it in points):
        return formulas.text_of(ends_of(points))
    if len(points) == 1:
        return "".join(map(str, points))
    return "{" + " ".join(it for it in [*TRUTHS, *ELEMENTS, *PAIRED] if it in points) + "}"


class Sheet:
    """A session in which each input has a cell of its own, and each call an output of its own."""

    def __init__(self, *declarations: str) -> None:
        self.lines, self.wanted = list(declarations), ["ok"] * len(declarations)
        self.cells: dict[tuple[str, Info], str] = {}

    def say(self, line: str, reply: str = "ok") -> None:
        self.lines.append(line)
        self.wanted.append(reply)

    def cell(self, kind: str, info: Info) -> str:
        """The cell of this kind that holds this information."""
        if (kind, info) not in self.cells:
            name = f"c{len(self.cells)}"
            self.cells[kind, info] = name
            self.say(f"cell {name} {kind}")
            if info is not None:
                self.say(f"fix {name} {text_of(info)}")
        return self.cells[kind, info]

    def call(
        self, name: str, kinds: str, parameter: str, inputs: Iterable[Info], answer: Info | Ends
    ) -> None:
        """Attaches a procedure to cells that hold the inputs, and wants this answer of it."""
        *ins, out = kinds.split()
        cells = [self.cell(kind, info) for kind, info in zip(ins, inputs)]
        output = f"z{len(self.lines)}"
        self.say(f"cell {output} {out}")
        self.say(f"attach {name} {' '.join(cells)} {output}{parameter}")
        self.say(
            f"ask {output}",
            "contradiction: no premise" if answer == CLASH else f"{output} = {text_of(answer)}",
        )

    def case(self, name: str) -> Case:
        return Case(f"rules: {name}", as_bytes(*self.lines), as_bytes(*self.wanted))


DOMAIN = "domain d " + " ".join(ELEMENTS)


def enumerated() -> Iterator[Case]:
    for name, kinds, parameter, values, answer in RULES:
        sheet = Sheet(DOMAIN)
        for inputs in product(*[[*informations, None] for informations in values]):
            found = answer(*inputs)
            if found == CLASH:
                alone = Sheet(DOMAIN)
                alone.call(name, kinds, parameter, inputs, found)
                yield alone.case(
                    f"{name} {kinds}{parameter} clashes at {' '.join(map(text_of, inputs))}"
                )
            else:
                sheet.call(name, kinds, parameter, inputs, found)
        yield sheet.case(f"{name} {kinds}{parameter}")


def images() -> Iterator[Case]:
    """Every relation between a domain of two and one of three, and every set."""
    pairs = list(product(PAIRED, ELEMENTS))
    sheet = Sheet("domain b u v", DOMAIN)
    for number, rows in enumerate(subsets(pairs)):
        sheet.say(f"relation r{number} b d = {' ; '.join(f'{u} {e}' for u, e in sorted(rows))}")
        for name, kinds, sets, at in [
            ("imager", "b d", subsets(PAIRED), 0),
            ("coimager", "d b", SET, 1),
        ]:
            for x in sets:
                found = frozenset(row[1 - at] for row in rows if row[at] in x)
                if found:
                    sheet.call(name, kinds, f" by r{number}", [x], found)
    yield sheet.case("imager and coimager")
    alone = Sheet("domain b u v", "relation r b b = u v")
    alone.call("imager", "b b", " by r", [frozenset("v")], CLASH)
    yield alone.case("imager clashes where nothing is paired")


def of_formula(found: str | formulas.Ends) -> Info | Ends:
    """What a formula answers, as it is written here."""
    if isinstance(found, str):
        return CLASH if found == formulas.CLASH else None
    return Ends(found)


def sides() -> Iterator[Case]:
    """What `below` and `above` answer."""
    for name, formula in [("below", formulas.below), ("above", formulas.above)]:
        sheet = Sheet()
        for t, x in product(TRUTH, SPANS):
            sheet.call(name, "truth span span", "", [t, x], of_formula(formula(t, ends_of(x))))
        yield sheet.case(name)


def quotients() -> Iterator[Case]:
    """What `divider` answers."""
    for scale in (1, 2, 3, 4):
        sheet = Sheet()
        for z, y in product(SPANS, SPANS):
            info = of_formula(formulas.divided(ends_of(z), ends_of(y), scale))
            to = Sheet() if info == CLASH else sheet
            to.call("divider", "span span span", f" by {scale}", [z, y], info)
            if to is not sheet:
                yield to.case(f"divider by {scale} clashes at {text_of(z)} {text_of(y)}")
        yield sheet.case(f"divider by {scale}")


def cases() -> Iterator[Case]:
    yield from enumerated()
    yield from images()
    yield from sides()
    yield from quotients()
