#!/usr/bin/python3
"""The rules of prop_many on drawn informations, against times and points that are tried one by one,
and the least time that drawn tasks take, against all plans.

usage: tests/many_rules.py PROGRAM

PROGRAM is a workbench with the rules of prop_many. What `cumulative` has to answer is found by
trying each start at each time, what `disjoint` has to by trying all points of a task and of one
other at a time, what `differ` has to by going over all intervals, what
`circuit` has to by going along what is known. Each answer has to hold what the
points of all leave, where it is the narrowest no more than these, of single numbers just those that
belong together, and no more than that to arguments that know less. The last line is `many rules: N
passed, M failed`; the status is 0 where none failed.
"""
import os
import sys
from dataclasses import dataclass
from itertools import chain, islice, product
from random import Random
from typing import Any, Callable, Iterator, Optional, Sequence

import rules
from case import Case, Check, as_bytes
from wide_rules import BOUND, PROGRAM, look_at_all, over_propwide

# (rules.py has no types)
Sheet: Any = rules.Sheet
Ends: Any = rules.Ends
text_of: Callable[[Any], str] = rules.text_of

Info = Optional[tuple[int, int]]
Points = Sequence[int]
CLASH: frozenset[int] = frozenset()
DRAWN, STEP = 400, 10
# (between which all drawn numbers lie)
LEAST, MOST = -3, 12


def low(info: Info) -> int:
    return -BOUND if info is None else info[0]


def high(info: Info) -> int:
    return BOUND if info is None else info[1]


def between(first: int, last: int) -> Any:
    """What is answered where a number lies between these two."""
    if first > last:
        return CLASH
    return None if (first, last) == (-BOUND, BOUND) else Ends((first, last))


def in_groups(items: Sequence[Any], size: int) -> list[Sequence[Any]]:
    return [items[at : at + size] for at in range(0, len(items), size)]


# ---- which points belong together


def runs(start: int, length: int, time: int) -> bool:
    return start <= time < start + length


def keeps_capacity(points: Points) -> bool:
    """While the first task runs, the demands of those that run are within the capacity."""
    capacity, *numbers = points
    own, *others = in_groups(numbers, 3)
    return all(
        sum(max(0, d) for s, n, d in [own, *others] if runs(s, n, time)) <= capacity
        for time in range(own[0], own[0] + own[1])
    )


def stands_alone(points: Points) -> bool:
    """At no time the first task runs beside another."""
    own, *others = in_groups(points, 2)
    return not any(runs(s, n, time) for time in range(own[0], sum(own)) for s, n in others)


def all_differ(points: Points) -> bool:
    return len(set(points)) == len(points)


def is_circuit(points: Points) -> bool:
    """From the successor of a node the others lead back to it, behind all nodes and no sooner."""
    at, node, *successors = points
    seen = [at]
    while at != node and 1 <= at <= len(successors) and len(seen) <= len(successors):
        at = successors[at - 1]
        seen.append(at)
    return 1 <= node <= len(successors) and at == node and len(seen) == len(successors)


# ---- what is answered


def cumulative(infos: Sequence[Info]) -> Any:
    capacity, (start, length, demand), *others = infos[0], *in_groups(infos[1:], 3)
    room = high(capacity) - max(0, low(demand))

    def load(time: int) -> int:
        return sum(max(0, low(d)) for s, n, d in others if high(s) <= time < low(s) + low(n))

    def fits(first: int) -> bool:
        return all(load(time) <= room for time in range(first, first + low(length)))

    if start is None:
        return None if fits(-BOUND) and fits(BOUND) else CLASH
    starts = [it for it in range(low(start), high(start) + 1) if fits(it)]
    return between(starts[0], starts[-1]) if starts else CLASH


def numbers(info: Info) -> range:
    return range(low(info), high(info) + 1)


def disjoint(infos: Sequence[Info]) -> Any:
    """Each other task leaves the ends of the starts of which one stands beside one of its own."""
    (start, length), *others = in_groups(infos, 2)
    first, last = low(start), high(start)
    for other in others:
        if None in (start, length, *other):
            continue
        left = [
            points[0]
            for points in product(*map(numbers, (start, length, *other)))
            if stands_alone(points)
        ]
        if not left:
            return CLASH
        first, last = max(first, min(left)), min(last, max(left))
    return between(first, last)


def differ(infos: Sequence[Info]) -> Any:
    """What is in no interval in which as many of the others lie as it has numbers."""
    own, *others = infos
    ends = [it for it in others if it is not None]
    taken: set[int] = set()
    for first, last in product(range(LEAST, MOST + 1), repeat=2):
        count, wide = sum(first <= a and b <= last for a, b in ends), last - first + 1
        if count > max(wide, 0):
            return CLASH
        if count == wide:
            taken |= set(range(first, last + 1))
    if own is None:
        return None
    left = [it for it in numbers(own) if it not in taken]
    return between(left[0], left[-1]) if left else CLASH


def circuit(infos: Sequence[Info]) -> Any:
    """What is left of the own successor where those that are known lead to the node too soon, or
    elsewhere."""
    own, node, *successors = infos
    home, count = low(node), len(successors)
    if home != high(node):
        return None
    if not 1 <= home <= count:
        return CLASH

    def may_follow(at: int) -> bool:
        for steps in range(count):
            if at == home or not 1 <= at <= count:
                return at == home and steps == count - 1
            after = successors[at - 1]
            if low(after) != high(after):
                return steps < count - 1
            at = low(after)
        return False

    left = [at for at in range(1, count + 1) if low(own) <= at <= high(own) and may_follow(at)]
    return between(left[0], left[-1]) if left else CLASH


@dataclass(frozen=True)
class Rule:
    """A rule with the inputs that it has beside those of the others, and for each of these."""

    name: str
    own: int
    each: int
    start: int
    answer: Callable[[Sequence[Info]], Any]
    belongs: Callable[[Points], bool]
    is_narrowest: bool = False

    def kinds(self, others: int) -> str:
        return " ".join(["span"] * (self.own + self.each * others + 1))


RULES = [
    Rule("cumulative", 4, 3, 1, cumulative, keeps_capacity),
    Rule("disjoint", 2, 2, 0, disjoint, stands_alone),
    Rule("differ", 1, 1, 0, differ, all_differ, is_narrowest=True),
    Rule("circuit", 2, 1, 0, circuit, is_circuit),
]


def drawn_node(random: Random, count: int) -> Info:
    """A number that is mostly a node's, and mostly known."""
    first = random.randint(0 if random.random() < 0.1 else 1, count + (random.random() < 0.1))
    return None if random.random() < 0.05 else (first, first + random.choice([0, 0, 0, 1, count]))


def drawn(random: Random, rule: Rule, others: int) -> list[Info]:
    """Small informations: of starts that overlap, short lengths and small demands."""
    if rule.name == "circuit":
        return [drawn_node(random, others) for _ in range(others + 2)]
    infos: list[Info] = []
    for place in range(rule.own + rule.each * others):
        is_start = (place - rule.start) % rule.each == 0 and place >= rule.start
        least, most, wide = (-3, 6, 6) if is_start else (-1, 4, 2)
        first = random.randint(least, most)
        infos.append((first, first + random.choice([0, 0, 1, 2, wide])))
    if random.random() < 0.1:
        infos[random.randrange(len(infos))] = None
    return infos


def missed(rule: Rule, infos: Sequence[Info], answer: Any) -> Optional[str]:
    """What the wanted answer itself misses, where the points are few enough to be tried."""
    count = 1
    for info in infos:
        count *= BOUND if info is None else len(numbers(info))
    if count > 2000:
        return None
    held = held_by(answer)
    owns: set[int] = set()
    for points in product(*map(numbers, infos)):
        if rule.belongs(points):
            owns.add(points[rule.start])
            if points[rule.start] not in held:
                return f"{rule.name}: {infos} misses {points}"
        elif count == 1 and points[rule.start] in held:
            return f"{rule.name}: {infos} is not exact"
    if rule.is_narrowest and owns and (min(owns), max(owns)) != (held[0], held[-1]):
        return f"{rule.name}: {infos} is not the narrowest"
    if rule.is_narrowest and held and not owns:
        return f"{rule.name}: {infos} has no points"
    return None


def held_by(answer: Any) -> range:
    """The numbers that an answer leaves."""
    if answer == CLASH:
        return range(0)
    return numbers(None if answer is None else (answer[0], answer[1]))


def grown(random: Random, rule: Rule, infos: Sequence[Info], answer: Any) -> Optional[str]:
    """Where the answer to one argument that knows more leaves a number that the answer doesn't."""
    place = random.randrange(len(infos))
    first, last = infos[place] or (LEAST, MOST)
    inner = sorted(random.randint(first, last) for _ in range(2))
    closer = [*infos[:place], (inner[0], inner[1]), *infos[place + 1 :]]
    more, held = held_by(rule.answer(closer)), held_by(answer)
    if not more or (held and held[0] <= more[0] and more[-1] <= held[-1]):
        return None
    return f"{rule.name}: {infos} says more than {closer}"


def enumerated() -> Iterator[Case]:
    """Sessions of calls that don't clash, and one for each that does."""
    random, closer = Random(5), Random(6)
    for rule in RULES:
        for others in (1, 2, 3, 5):
            sheet = Sheet()
            for _ in range(DRAWN):
                infos = drawn(random, rule, others)
                answer = rule.answer(infos)
                wrong = missed(rule, infos, answer) or grown(closer, rule, infos, answer)
                if wrong:
                    raise AssertionError(wrong)
                inputs = [None if it is None else Ends(it) for it in infos]
                name = f"{rule.name}{others}"
                if answer == CLASH:
                    alone = Sheet()
                    alone.call(name, rule.kinds(others), "", inputs, CLASH)
                    yield alone.case(f"{name} clashes at {' '.join(map(text_of, inputs))}")
                else:
                    sheet.call(name, rule.kinds(others), "", inputs, answer)
            yield sheet.case(f"{rule.name}{others}")


# ---- plans

TASKS, LAST, PLANS = 4, 7, 8


@dataclass(frozen=True)
class Plan:
    """Tasks by length and demand, in a hall of this capacity, or one at a time where it has
    none."""

    tasks: tuple[tuple[int, int], ...]
    capacity: Optional[int]

    def fits(self, starts: Points) -> bool:
        """Whether each task keeps to the hall beside the others."""
        timed = [(s, n, d) for s, (n, d) in zip(starts, self.tasks)]
        if self.capacity is None:
            return all(
                stands_alone([number for s, n, _ in [own, *rest] for number in (s, n)])
                for own, rest in others_of(timed)
            )
        return all(
            keeps_capacity([self.capacity, *(number for task in [own, *rest] for number in task)])
            for own, rest in others_of(timed)
        )

    def least(self) -> int:
        """The earliest end of all, by all plans."""
        ends = [
            max(s + n for s, (n, _) in zip(starts, self.tasks))
            for starts in product(range(LAST + 1), repeat=len(self.tasks))
            if self.fits(starts)
        ]
        return min(ends)

    def lines(self) -> list[str]:
        lines = [
            "cell end span",
            "fix end 0..20",
            "cell hall span",
            f"fix hall {self.capacity or 1}",
        ]
        for at, (length, demand) in enumerate(self.tasks):
            for name, value in [("n", f"{length}"), ("d", f"{demand}"), ("s", f"0..{LAST}")]:
                lines += [f"cell {name}{at} span", f"fix {name}{at} {value}"]
            lines += [
                f"cell e{at} span",
                f"attach sum s{at} n{at} e{at}",
                f"attach atmost e{at} end",
            ]
        alone = self.capacity is None
        rule = f"disjoint{TASKS - 1}" if alone else f"cumulative{TASKS - 1} hall"
        for own, rest in others_of(range(TASKS)):
            cells = [f"s{it} n{it}" if alone else f"s{it} n{it} d{it}" for it in (own, *rest)]
            lines.append(f"attach {rule} {' '.join(cells)} s{own}")
        return [*lines, "least end"]

    def case(self) -> Case:
        wanted = f"end = {self.least()}".encode()

        def wrong_with(output: bytes) -> Optional[str]:
            lines = output.split(b"\n")
            return None if wanted in lines and b"because" in output else f"no {wanted!r} in {lines}"

        name = f"many rules: the least end of {self.tasks} in {self.capacity}"
        return Case(name, as_bytes(*self.lines()), wrong_with)


def others_of(items: Sequence[Any]) -> list[tuple[Any, list[Any]]]:
    """Each item with the others."""
    return [(it, [*items[:at], *items[at + 1 :]]) for at, it in enumerate(items)]


def plans() -> Iterator[Case]:
    random = Random(7)
    for at in range(PLANS):
        capacity = None if at % 2 else random.choice([2, 3])
        most = 1 if capacity is None else capacity
        tasks = [(random.randint(1, 2), random.randint(1, most)) for _ in range(TASKS)]
        yield Plan(tuple(tasks), capacity).case()


def built() -> Iterator[Check]:
    """The sessions over propwide, where it is built, and one of each STEP clashes."""
    if os.path.exists(PROGRAM):
        yield from map(over_propwide, plans())
        cases = list(enumerated())
        whole = [it for it in cases if " clashes " not in it.name]
        clashes = [it for it in cases if " clashes " in it.name]
        yield from map(over_propwide, [*whole, *islice(clashes, 0, None, STEP)])


def main(words: list[str]) -> int:
    return look_at_all(words, __doc__, lambda: chain(enumerated(), plans()), "many rules")


if __name__ == "__main__":
    sys.exit(main(sys.argv[1:]))
