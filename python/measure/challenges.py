#!/usr/bin/python3
"""Draws the data of the models of a challenge's kind: the same each time.

usage: python/measure/challenges.py

Sizes were chosen by what Gecode needs alone: the small ones take it no time, the middle ones 1 to
60 seconds where some size does, the large ones the next step that was tried.
"""

import random
import sys
from collections.abc import Mapping, Sequence
from pathlib import Path

MEASURED = Path(__file__).resolve().parent
sys.path += [str(MEASURED.parent / "src"), str(MEASURED)]

from shops import shop  # noqa: E402

FOLDER = MEASURED / "models/challenge"
Given = int | Sequence[int] | Sequence[Sequence[int]]
Data = Mapping[str, Given]


def stacks(products: int, customers: int, seed: int) -> Data:
    """Each customer wants a third of the products."""
    drawn = random.Random(seed)
    wants = [[int(drawn.random() < 0.35) for _ in range(products)] for _ in range(customers)]
    return {"products": products, "customers": customers, "wants": wants}


def tasks(count: int, seed: int) -> Data:
    """Tasks that need up to six of ten of three resources, each after up to two of those before."""
    drawn = random.Random(seed)
    takes = [drawn.randint(1, 10) for _ in range(count)]
    needs = [[drawn.choice((0, 0, 1, 2, 3, 4, 5, 6)) for _ in range(count)] for _ in range(3)]
    before: set[tuple[int, ...]] = {
        (drawn.randint(max(1, task - 6), task - 1), task)
        for task in range(2, count + 1)
        for _ in range(drawn.randint(0, 2))
    }
    rows: list[tuple[int, ...]] = sorted(before)
    return {
        "n": count,
        "resources": 3,
        "days": sum(takes),
        "takes": takes,
        "needs": needs,
        "there": [10, 10, 10],
        "before": rows,
    }


def courses(count: int, periods: int, seed: int) -> Data:
    """Courses of which two to four are in each period, so that few loads are the same."""
    drawn = random.Random(seed)
    credits = [drawn.randint(5, 40) for _ in range(count)]
    pairs = {tuple(sorted(drawn.sample(range(1, count + 1), 2))) for _ in range(count)}
    rows: list[tuple[int, ...]] = sorted(pairs)
    return {
        "courses": count,
        "periods": periods,
        "credits": credits,
        "before": rows,
        "fewest": 2,
        "most_courses": 4,
    }


def jobs(count: int, machines: int, seed: int) -> Data:
    """Jobs that visit each machine once, in any order."""
    drawn = random.Random(seed)
    every = range(1, machines + 1)
    return {
        "jobs": count,
        "machines": machines,
        "machine": [drawn.sample(every, machines) for _ in range(count)],
        "takes": [[drawn.randint(1, 40) for _ in every] for _ in range(count)],
    }


def known_jobs(name: str) -> Data:
    """A known job shop."""
    found = shop(name)
    machines = len({*found.who})
    rows = range(0, len(found.long), machines)
    return {
        "jobs": len(rows),
        "machines": machines,
        "machine": [[who + 1 for who in found.who[at : at + machines]] for at in rows],
        "takes": [found.long[at : at + machines] for at in rows],
    }


def piles(ranks: int, seed: int) -> Data:
    """All cards of four suits but the first, in piles of three."""
    drawn = random.Random(seed)
    cards = list(range(2, 4 * ranks + 1))
    drawn.shuffle(cards)
    laid = [cards[at : at + 3] for at in range(0, len(cards), 3)]
    return {"ranks": ranks, "suits": 4, "pile": laid}


def golfers(groups: int, size: int, weeks: int) -> Data:
    """So many groups of a size, for so many weeks."""
    return {"groups": groups, "size": size, "weeks": weeks}


def nurses(count: int, days: int) -> Data:
    """Nurses of whom three work by day and one by night, each half of the days or a little more."""
    least = days // 2
    return {
        "nurses": count,
        "days": days,
        "wanted": [3, 1],
        "least": least,
        "greatest": least + 2,
    }


SIZES: dict[str, dict[str, Data]] = {
    "small": {
        "bacp": courses(12, 4, 1),
        "blackhole": piles(7, 1),
        "golfers": golfers(3, 3, 4),
        "golomb": {"n": 8},
        "jobshop": known_jobs("ft06"),
        "nurses": nurses(7, 4),
        "rcpsp": tasks(15, 1),
        "stacks": stacks(8, 8, 1),
        "stilllife": {"n": 5},
        "tour": {"n": 11},
    },
    "middle": {
        "bacp": courses(27, 9, 2),
        "blackhole": piles(13, 3),
        "golfers": golfers(6, 3, 6),
        "golomb": {"n": 10},
        "jobshop": jobs(8, 5, 3),
        "nurses": nurses(7, 6),
        "rcpsp": tasks(18, 1),
        "stacks": stacks(12, 10, 1),
        "stilllife": {"n": 7},
        "tour": {"n": 20},
    },
    "large": {
        "bacp": courses(30, 10, 1),
        "blackhole": piles(13, 1),
        "golfers": golfers(5, 3, 6),
        "golomb": {"n": 11},
        "jobshop": known_jobs("la01"),
        "nurses": nurses(7, 7),
        "rcpsp": tasks(20, 1),
        "stacks": stacks(15, 12, 1),
        "stilllife": {"n": 8},
        "tour": {"n": 22},
    },
}


def text_of(data: Data) -> str:
    """Data as MiniZinc reads it."""
    return "".join(f"{name} = {_value(each)};\n" for name, each in data.items())


def _value(given: Given) -> str:
    if isinstance(given, int):
        return str(given)
    rows = [", ".join(map(str, it)) for it in given if not isinstance(it, int)]
    return f"[|{' | '.join(rows)}|]" if rows else str(list(given))


def main() -> int:
    for size, models in SIZES.items():
        for model, data in models.items():
            (FOLDER / f"{model}.{size}.dzn").write_text(text_of(data))
    return 0


if __name__ == "__main__":
    sys.exit(main())
