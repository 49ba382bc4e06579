#!/usr/bin/python3
"""Random networks over the kit and the wider rules against a plain evaluation, in each order of
calls; and sums of up to eight numbers with coefficients, as chains of products and sums.

usage: tests/wide_sessions.py PROGRAM [COUNT]

PROGRAM is a workbench with the rules of prop_wide beside the kit's. In a network small cells are
narrowed, under premises that go and come, by what each rule leaves of all points of its inputs,
until nothing changes. What a sum leaves of each number is found without a chain: from the ends of
all others at once. Of each COUNT are tried (DRAWN); the status is 0 where none failed.
"""
import os
import sys
from dataclasses import dataclass, field
from random import Random
from typing import Any, Callable, Iterable, Iterator, Optional

from case import ORDERS, Case
from wide_rules import RULES, TRUTHS, Ends, Point, Rule, as_bytes, text_of, where_built

DRAWN = 40
# (case.py has no types)
IN_ORDERS: Any = ORDERS
MOST = 6
Info = frozenset[Point]
Values = dict[str, Info]

KIT = [
    Rule("adder", "span span span", (), lambda x, y: [x + y]),
    Rule("subtracter", "span span span", (), lambda x, y: [x - y]),
    Rule("multiplier", "span span span", (), lambda x, y: [x * y]),
    Rule("lesser", "span span truth", (), lambda x, y: ["yes" if x < y else "no"]),
]


def is_small(rule: Rule) -> bool:
    """Whether all of its cells are numbers and truths, and few."""
    kinds = rule.kinds.split()
    return set(kinds) <= {"span", "truth"} and len(kinds) <= 4


DRAWN_FROM = [*KIT, *filter(is_small, RULES)]


@dataclass
class Network:
    """Cells with what is stated of each always, rules on cells, and what premises state."""

    kinds: dict[str, str]
    always: Values
    attached: list[tuple[Rule, list[str]]] = field(default_factory=list)
    told: dict[str, tuple[str, Info]] = field(default_factory=dict)

    def lines(self) -> Iterator[str]:
        for cell, kind in self.kinds.items():
            yield f"cell {cell} {kind}"
        for rule, cells in self.attached:
            yield f"attach {rule.name} {' '.join(cells)}{rule.parameter}"
        for cell, info in self.always.items():
            if self.kinds[cell] == "span":
                yield f"fix {cell} {text_of(info)}"
        for premise, (cell, info) in self.told.items():
            yield f"tell {premise} {cell} {text_of(info)}"

    def evaluated(self, believed: Iterable[str]) -> Optional[Values]:
        """What each cell may be at most with these premises; None where one can be nothing."""
        values = dict(self.always)
        for premise in believed:
            cell, info = self.told[premise]
            values[cell] &= info
        narrower = True
        while narrower and all(values.values()):
            narrower = False
            for rule, cells in self.attached:
                left = self.left(rule, [values[cell] for cell in cells])
                narrower = narrower or left != values[cells[-1]]
                values[cells[-1]] = left
                if not left:
                    return None
        return values if all(values.values()) else None

    @staticmethod
    def left(rule: Rule, infos: list[Info]) -> Info:
        """What a rule leaves of its last cell."""
        *inputs, output = infos
        answer = rule.answer(tuple(inputs))
        if answer is None:
            return output
        if isinstance(answer, Ends):
            low, high = answer
            return frozenset(it for it in output if isinstance(it, int) and low <= it <= high)
        return output & frozenset(answer)


def drawn(chance: Random) -> Network:
    """A network of five numbers and three truths."""
    kinds = {**{f"n{at}": "span" for at in range(5)}, **{f"t{at}": "truth" for at in range(3)}}
    anything: dict[str, Info] = {"span": frozenset(range(MOST + 1)), "truth": frozenset(TRUTHS)}
    network = Network(kinds, {cell: anything[kind] for cell, kind in kinds.items()})
    of_kind = {kind: [it for it in kinds if kinds[it] == kind] for kind in anything}
    for _ in range(chance.randint(2, 5)):
        rule = chance.choice(DRAWN_FROM)
        cells = [chance.choice(of_kind[kind]) for kind in rule.kinds.split()]
        network.attached.append((rule, cells))
    for at in range(4):
        cell = chance.choice(list(kinds))
        low = chance.randint(0, MOST - 2)
        number: Info = frozenset(range(low, chance.randint(low + 1, MOST) + 1))
        said = number if kinds[cell] == "span" else frozenset([chance.choice(TRUTHS)])
        network.told[f"p{at}"] = (cell, said)
    return network


def of_network(seed: int, options: list[str]) -> Case:
    """A session in which premises go and come, and all cells are asked for each time."""
    chance = Random(seed)
    network = drawn(chance)
    lines = list(network.lines())
    wanted = ["ok"] * len(lines)
    out: set[str] = set()
    for _ in range(4):
        premise = chance.choice(list(network.told))
        lines.append(f"{'bring' if premise in out else 'kick'} {premise}")
        wanted.append("ok")
        out ^= {premise}
        values = network.evaluated(it for it in network.told if it not in out)
        for cell, kind in network.kinds.items():
            lines.append(f"ask {cell}")
            wanted.append(reply(cell, kind, values))
    title = f"wide sessions: network {seed} {' '.join(options)}"
    return Case(title, as_bytes(lines), compared(wanted), options)


def reply(cell: str, kind: str, values: Optional[Values]) -> str:
    """What is answered of a cell, or how that begins."""
    if values is None:
        return "contradiction: "
    is_open = kind == "truth" and len(values[cell]) == 2
    return f"{cell} = {'nothing' if is_open else text_of(values[cell])}"


@dataclass(frozen=True)
class compared:
    """Whether each line of an output is the one wanted, or begins as the contradiction wanted."""

    wanted: list[str]

    def __call__(self, output: bytes) -> Optional[str]:
        told = output.decode().splitlines()
        if len(told) != len(self.wanted):
            return f"{len(told)} lines, wanted {len(self.wanted)}"
        for number, (line, wanted) in enumerate(zip(told, self.wanted), 1):
            is_so = line.startswith(wanted) if wanted.endswith(": ") else line == wanted
            if not is_so:
                return f"line {number} is {line!r}, wanted {wanted!r}"
        return None


# ---- sums with coefficients

Bounds = tuple[int, int]


def times(factor: int, ends: Bounds) -> Bounds:
    low, high = sorted(factor * end for end in ends)
    return low, high


def bounded(factors: list[int], numbers: list[Bounds], total: Bounds) -> Optional[list[Bounds]]:
    """What is left of each number and of their sum, from the ends of all others at once; None where
    one can be nothing."""
    known = [*numbers, total]
    # (the sum less the total is zero)
    signed = [*factors, -1]
    narrower = True
    while narrower:
        narrower = False
        for at, factor in enumerate(signed):
            others = [times(signed[i], known[i]) for i in range(len(known)) if i != at]
            low, high = -sum(high for _, high in others), -sum(low for low, _ in others)
            if factor < 0:
                low, high, factor = -high, -low, -factor
            found = max(known[at][0], -(-low // factor)), min(known[at][1], high // factor)
            if found[0] > found[1]:
                return None
            narrower = narrower or found != known[at]
            known[at] = found
    return known


def of_sum(seed: int) -> Case:
    """A session of a sum as a chain, in which each number and the sum are asked for."""
    chance = Random(seed)
    count = chance.randint(2, 8)
    factors = [chance.choice([-1, 1]) * chance.randint(1, 9) for _ in range(count)]
    numbers: list[Bounds] = []
    for _ in range(count):
        low = chance.randint(-20, 20)
        numbers.append((low, low + chance.randint(0, 15)))
    ends = [times(*pair) for pair in zip(factors, numbers)]
    low = chance.randint(sum(low for low, _ in ends) - 5, sum(high for _, high in ends))
    total = (low, low + chance.randint(0, 30))
    lines, before = ["cell z span"], ""
    for at, (factor, (low, high)) in enumerate(zip(factors, numbers)):
        lines += [f"cell {it}{at} span" for it in "kxp"]
        lines += [f"fix k{at} {factor}", f"fix x{at} {low}..{high}"]
        lines.append(f"attach product k{at} x{at} p{at}")
        if at:
            after = "z" if at == count - 1 else f"s{at}"
            lines += [f"cell {after} span"] if after != "z" else []
            lines.append(f"attach sum {before} p{at} {after}")
        before = after if at else "p0"
    lines.append(f"fix z {total[0]}..{total[1]}")
    wanted = ["ok"] * len(lines)
    found = bounded(factors, numbers, total)
    for at, cell in enumerate([*(f"x{at}" for at in range(count)), "z"]):
        lines.append(f"ask {cell}")
        known = None if found is None else frozenset([found[at][0], found[at][1]])
        wanted.append(reply(cell, "span", None if known is None else {cell: known}))
    return Case(f"wide sessions: a sum of {count}, {seed}", as_bytes(lines), compared(wanted))


def cases(count: int = DRAWN) -> Iterator[Case]:
    for seed in range(count):
        for order in IN_ORDERS:
            yield of_network(seed, order)
    yield from map(of_sum, range(count))


built = where_built(cases)


def main(words: list[str]) -> int:
    if not words or words[0].startswith("-"):
        print(__doc__)
        return 0 if words == ["--help"] else 2
    count = int(words[1]) if len(words) > 1 else DRAWN
    passed = failed = 0
    for case in cases(count):
        look: Callable[[str], Optional[str]] = case.wrong
        wrong = look(os.path.abspath(words[0]))
        passed, failed = passed + (not wrong), failed + bool(wrong)
        if wrong:
            print(f"{case.name}: {wrong}")
    print(f"wide sessions: {passed} passed, {failed} failed")
    return 1 if failed else 0


if __name__ == "__main__":
    sys.exit(main(sys.argv[1:]))
