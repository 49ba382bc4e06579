"""Random statements of one cell, and `why`: that no premise that is named can be left out beside
what rests on none."""
import random
from typing import Iterator

from case import Case, as_bytes

SESSIONS = 400
ELEMENTS = "abcdefg"


def drawn(chance: random.Random) -> list[tuple[str, frozenset[str]]]:
    """Statements in order, one of which is fixed and the others told; all of them hold `a`."""
    count = chance.randint(2, 6)
    fixed = chance.randrange(count)
    said = []
    for number in range(count):
        some = {"a", *chance.sample(ELEMENTS[1:], chance.randint(1, 5))}
        said.append(("" if number == fixed else f"p{number}", frozenset(some)))
    return said


def line(premise: str, some: frozenset[str]) -> str:
    told = "{" + " ".join(sorted(some)) + "}"
    return f"tell {premise} x {told}" if premise else f"fix x {told}"


def left(said: list[tuple[str, frozenset[str]]], premises: set[str]) -> frozenset[str]:
    """The elements that these premises leave, with what rests on none."""
    found = frozenset(ELEMENTS)
    for premise, some in said:
        if not premise or premise in premises:
            found &= some
    return found


def wrong(said: list[tuple[str, frozenset[str]]], reply: str) -> str | None:
    """What is wrong with the premises that a reply names, or None."""
    named = set(reply.partition(" because ")[2].split()) - {"no", "premise"}
    whole = left(said, {premise for premise, _ in said})
    if left(said, named) != whole:
        return f"{reply!r}: they are not enough"
    needless = [premise for premise in named if left(said, named - {premise}) == whole]
    return f"{reply!r}: {needless[0]} can be left out" if needless else None


def cases() -> Iterator[Case]:
    """All of them in one session, each at a cell of its own in turn."""
    chance = random.Random(0)
    all_said = [drawn(chance) for _ in range(SESSIONS)]
    lines = [f"domain d {' '.join(ELEMENTS)}"]
    for at, said in enumerate(all_said):
        renamed = [(premise and f"{premise}_{at}", some) for premise, some in said]
        lines += [
            f"cell x{at} d",
            *(line(premise, some).replace(" x ", f" x{at} ") for premise, some in renamed),
            f"why x{at}",
        ]

    def judged(output: bytes) -> str | None:
        replies = [it for it in output.decode().splitlines() if it != "ok"]
        if len(replies) != SESSIONS:
            return f"{len(replies)} replies"
        for at, (said, reply) in enumerate(zip(all_said, replies)):
            found = wrong([(premise and f"{premise}_{at}", some) for premise, some in said], reply)
            if found:
                return f"x{at}: {found}, of {said}"
        return None

    yield Case("reasons: none can be left out", as_bytes(*lines), judged)
