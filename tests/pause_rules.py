#!/usr/bin/python3
"""The rules of tasks that pause on drawn informations, against days that are walked one by one, and
the least end of drawn tasks, against all plans.

usage: tests/pause_rules.py PROGRAM

PROGRAM is a workbench with the rules of prop_many. Pauses are drawn in order, and none overlaps
another. What `pauser` has to answer is found by walking from the first and the last start, day by
day, until the work is done; what `pause_back` has to by walking from each start. Where a pause is
not known, they answer nothing. The last line is `pause rules: N passed, M failed`; the status is 0
where none failed.
"""
import os
import sys
from itertools import chain, islice, product
from random import Random
from typing import Any, Iterator, Optional, Sequence

import rules
from case import Case, Check, as_bytes
from many_rules import CLASH, Info, between, high, low, numbers
from wide_rules import PROGRAM, look_at_all, over_propwide

# (rules.py has no types)
Sheet: Any = rules.Sheet
Ends: Any = rules.Ends

DRAWN, STEP = 300, 10
COUNTS = (1, 2, 4)
PLANS, LAST = 8, 9

Pauses = Sequence[tuple[int, int]]


def is_off(day: int, pauses: Pauses) -> bool:
    return any(first <= day < first + days for first, days in pauses)


def ended(start: int, work: int, pauses: Pauses) -> int:
    """The end of a task, walked day by day: on the days of a pause nothing is done."""
    day, left = start, work
    while left > 0:
        left -= not is_off(day, pauses)
        day += 1
    return day


def pauser(start: Info, work: Info, pauses: Pauses) -> Any:
    """The ends from the first to the last."""
    return between(ended(low(start), low(work), pauses), ended(high(start), high(work), pauses))


def pause_back(start: Info, end: Info, work: Info, pauses: Pauses) -> Any:
    """The starts from which the task may end so, where there is any work on no days of pauses."""
    left = [
        day
        for day in numbers(start)
        if ended(day, high(work), pauses) >= low(end) and ended(day, low(work), pauses) <= high(end)
    ]
    if not left:
        return CLASH
    first, last = left[0], left[-1]
    while low(work) > 0 and is_off(first, pauses):
        first += 1
    while low(work) > 0 and is_off(last, pauses):
        last -= 1
    return between(first, last)


def drawn_pauses(random: Random, count: int) -> Pauses:
    """So many pauses in order, some of no days, some that touch."""
    pauses, day = [], random.randint(-2, 3)
    for _ in range(count):
        first, days = day + random.choice([0, 1, 1, 2, 3]), random.choice([-1, 0, 1, 1, 2, 3])
        pauses.append((first, days))
        day = first + max(days, 0)
    return pauses


def drawn(random: Random, least: int, most: int) -> Info:
    first = random.randint(least, most)
    return (first, first + random.choice([0, 0, 1, 2, 5]))


def flat(pauses: Pauses) -> list[Info]:
    """The first day and the number of days of each, as what is known."""
    return [(it, it) for pause in pauses for it in pause]


def enumerated() -> Iterator[Case]:
    """Sessions of calls that don't clash, and one for each that does."""
    random = Random(11)
    for count in COUNTS:
        sheet = Sheet()
        for _ in range(DRAWN):
            pauses = drawn_pauses(random, count)
            start, work, end = drawn(random, -3, 12), drawn(random, -1, 5), drawn(random, -3, 18)
            told = flat(pauses)
            is_known = random.random() > 0.1
            if not is_known:
                first, last = told[-1] or (0, 0)
                told[-1] = (first, last + 1)
            answers = {
                f"pauser{count}": ([start, work], pauser(start, work, pauses)),
                f"pause_back{count}": ([start, end, work], pause_back(start, end, work, pauses)),
            }
            for name, (own, answer) in answers.items():
                inputs = [None if it is None else Ends(it) for it in (*own, *told)]
                kinds = " ".join(["span"] * (len(inputs) + 1))
                if answer == CLASH and is_known:
                    alone = Sheet()
                    alone.call(name, kinds, "", inputs, CLASH)
                    yield alone.case(f"{name} clashes at {' '.join(map(str, inputs))}")
                else:
                    sheet.call(name, kinds, "", inputs, answer if is_known else None)
        yield sheet.case(f"pauses of {count}")


def plan(random: Random) -> Case:
    """The least end of the second of two tasks, which begins when the first is over, with pauses of
    their own."""
    works = [random.randint(0, 4) for _ in range(2)]
    pauses = [drawn_pauses(random, 2) for _ in range(2)]
    lines = []
    for at in range(2):
        cells = [f"p{at}{place}" for place in range(4)]
        for name, value in zip(cells, (it for pause in pauses[at] for it in pause)):
            lines += [f"cell {name} span", f"fix {name} {value}"]
        for name, text in (("s", f"0..{LAST}"), ("w", f"{works[at]}"), ("e", "0..60")):
            lines += [f"cell {name}{at} span", f"fix {name}{at} {text}"]
        lines.append(f"attach pausing2 s{at} w{at} e{at} {' '.join(cells)}")
    lines += ["attach atmost e0 s1", "least e1"]
    ends = [
        ended(second, works[1], pauses[1])
        for first, second in product(range(LAST + 1), repeat=2)
        if ended(first, works[0], pauses[0]) <= second
        and not any(w and is_off(s, p) for s, w, p in zip((first, second), works, pauses))
    ]
    wanted = b"e1 = %d" % min(ends) if ends else b"none: no premise"

    def wrong_with(output: bytes) -> Optional[str]:
        told = output.split(b"\n")
        return None if wanted in told else f"no {wanted!r} in {told}"

    return Case(f"pause rules: the least end of {works} by {pauses}", as_bytes(*lines), wrong_with)


def plans() -> Iterator[Case]:
    random = Random(12)
    yield from (plan(random) for _ in range(PLANS))


def built() -> Iterator[Check]:
    """The sessions over propwide, where it is built, and one of each STEP clashes."""
    if os.path.exists(PROGRAM):
        cases = list(enumerated())
        whole = [it for it in cases if " clashes " not in it.name]
        clashes = [it for it in cases if " clashes " in it.name]
        yield from map(over_propwide, [*plans(), *whole, *islice(clashes, 0, None, STEP)])


def main(words: list[str]) -> int:
    return look_at_all(words, __doc__, lambda: chain(enumerated(), plans()), "pause rules")


if __name__ == "__main__":
    sys.exit(main(sys.argv[1:]))
