#!/usr/bin/python3
"""Values that all differ, over a program that has the excluders: small ones against matchings, and
Sudokus against a solver of their own.

usage: tests/wide_puzzles.py PROGRAM

What different elements leave is found by matching: an element stays where the other cells can be
given elements that all differ from it and from each other. A Sudoku is 81 cells and `different9`
on its rows, columns and boxes; its solution is found by trying digits, and is the only one. The
easy one is filled without a choice; the hard ones have choices for 32 cells. By itself this tells
the seconds of each Sudoku, and its instructions where valgrind is there.
"""
import os
import re
import shutil
import subprocess
import sys
import tempfile
import time
from itertools import chain, combinations, islice, pairwise, product, starmap
from random import Random
from typing import Callable, Iterable, Iterator, Optional

from case import Case, Check, answered, as_bytes
from puzzles import DIGITS, Puzzle, clues, sudoku

TOP = os.path.dirname(os.path.dirname(os.path.realpath(__file__)))
PROGRAM = f"{TOP}/crates/propwide/out/propwide"
STEP = 10

# What may be known of a cell: some elements, or None for nothing.
Known = Optional[frozenset[str]]

# ---- small ones

ELEMENTS = [f"e{n}" for n in range(10)]
LETTERS = "abcdefghi"


def matched(cells: list[frozenset[str]]) -> bool:
    """Whether the cells can be given elements that all differ, one of each."""
    taken: dict[str, int] = {}

    def seat(cell: int, seen: set[str]) -> bool:
        for element in cells[cell] - seen:
            seen.add(element)
            if element not in taken or seat(taken[element], seen):
                taken[element] = cell
                return True
        return False

    return all(seat(cell, set()) for cell in range(len(cells)))


def left(cells: list[Known], at: int, whole: frozenset[str]) -> frozenset[str]:
    """The elements of one cell that the others leave; of whom nothing is known has no part."""
    others = [it for place, it in enumerate(cells) if place != at and it is not None]
    mine = cells[at]
    return frozenset(
        it for it in (whole if mine is None else mine) if matched([frozenset([it]), *others])
    )


def text_of(elements: Iterable[str]) -> str:
    found = sorted(elements)
    return found[0] if len(found) == 1 else "{" + " ".join(found) + "}"


def told(cell: str, elements: frozenset[str]) -> str:
    return f"{cell} = {text_of(elements)}" if elements else "contradiction: no premise"


def network(size: int, cells: Iterable[str]) -> list[str]:
    lines = [f"domain d {' '.join(ELEMENTS[:size])}", "relation any d d = e0 e0"]
    return [*lines, *(f"cell {cell} d" for cell in cells)]


def fixed(cells: Iterable[str], infos: list[Known]) -> list[str]:
    return [f"fix {cell} {text_of(it)}" for cell, it in zip(cells, infos) if it is not None]


def drawn(chance: Random, count: int, whole: list[str]) -> list[Known]:
    """An information for each cell, few elements as often as many, and now and then none."""
    infos: list[Known] = []
    for _ in range(count):
        size = chance.choice([1, 2, 2, 3, len(whole)])
        known = frozenset(chance.sample(whole, min(size, len(whole))))
        infos.append(None if chance.random() < 0.1 else known)
    return infos


def excluded(count: int, infos: list[Known], size: int) -> Case:
    """What so many others, the last ones, tell of y."""
    cells = ["y", *LETTERS[:count]]
    whole = frozenset(ELEMENTS[:size])
    first, by = ("y ", "") if count < 8 else ("", " by any")
    lines = network(size, cells)
    lines.append(f"attach excluder{count} {first}{' '.join(cells[1:])} y{by}")
    lines += [*fixed(cells, infos), "ask y"]
    found = left(infos, 0, whole)
    if infos[0] is None and count < 8:
        # (a rule that knows no domain can leave nothing out of y, of which nothing is known)
        found = whole if matched([it for it in infos[1:] if it is not None]) else frozenset()
    answer = "y = nothing" if infos[0] is None and found == whole else told("y", found)
    title = f"wide puzzles: {'; '.join(lines[3:])}"
    return Case(title, as_bytes(*lines), as_bytes(*["ok"] * (len(lines) - 1), answer))


def different(count: int, infos: list[Known], size: int, switch: str) -> Case:
    """What so many different values leave of each; softly where a truth switches it."""
    cells = [*LETTERS[:count]]
    whole = frozenset(ELEMENTS[:size])
    by = " by any" if count == 9 else ""
    lines = network(size, cells)
    if switch:
        lines += ["cell t truth", f"attach soft_different{count} t {' '.join(cells)}{by}"]
        lines += ["fix t yes"] if switch == "yes" else []
    else:
        lines.append(f"attach different{count} {' '.join(cells)}{by}")
    lines += fixed(cells, infos)
    asked = [f"ask {cell}" for cell in cells]
    if switch == "open":
        wanted = ["nothing" if it is None else text_of(it) for it in infos]
        answers = [f"{cell} = {it}" for cell, it in zip(cells, wanted)]
    else:
        answers = [told(cell, left(infos, at, whole)) for at, cell in enumerate(cells)]
        if any(it.startswith("contradiction") for it in answers):
            answers = ["contradiction: no premise"] * count
    title = f"wide puzzles: {switch} {'; '.join(lines[2 + count :])}"
    return Case(title, as_bytes(*lines, *asked), as_bytes(*["ok"] * len(lines), *answers))


def small() -> Iterator[Case]:
    chance = Random("values that all differ")
    for count in range(1, 9):
        for _ in range(60):
            size = chance.choice([count, count + 1, 10])
            yield excluded(count, drawn(chance, count + 1, ELEMENTS[:size]), size)
    for count in range(2, 10):
        for at in range(45):
            size = chance.choice([max(2, count - 1), count, 10])
            infos = [
                it or frozenset(ELEMENTS[:size]) for it in drawn(chance, count, ELEMENTS[:size])
            ]
            yield different(count, list(infos), size, ["", "yes", "open"][at % 3])


# ---- Sudokus

EASY = "530070000600195000098000060800060003400803001700020006060000280000419005000080079"
HARD = [
    "400000805030000000000700000020000060000080400000010000000603070500200000104000000",
    "000000907000420180000705026100904000050000040000507009920108000034059000507000000",
    "850002400720000009004000000000107002305000900040000000000080070017000000000036040",
    "000000010400000000020000000000050407008000300001090000300400200050100000000806000",
]


def groups() -> list[list[int]]:
    """The places of each row, column and box."""
    rows = [[9 * y + x for x in range(9)] for y in range(9)]
    columns = [[9 * y + x for y in range(9)] for x in range(9)]
    boxes = [
        [9 * (y + b) + x + a for b in range(3) for a in range(3)]
        for y in (0, 3, 6)
        for x in (0, 3, 6)
    ]
    return [*rows, *columns, *boxes]


GROUPS = groups()


def solutions(given: str) -> Iterator[str]:
    """Each solution, by giving the place with the fewest digits left one of them after another."""
    taken = [set[str]() for _ in GROUPS]
    around = [[at for at, group in enumerate(GROUPS) if place in group] for place in range(81)]
    digits = [*given]

    def put(place: int, digit: str) -> None:
        digits[place] = digit
        for at in around[place]:
            taken[at].add(digit)

    def take(place: int) -> None:
        for at in around[place]:
            taken[at].remove(digits[place])
        digits[place] = "0"

    def left_at(place: int) -> list[str]:
        used = set.union(*(taken[at] for at in around[place]))
        return [it for it in "123456789" if it not in used]

    def search() -> Iterator[str]:
        open_ones = [place for place in range(81) if digits[place] == "0"]
        if not open_ones:
            yield "".join(digits)
            return
        place = min(open_ones, key=lambda it: len(left_at(it)))
        for digit in left_at(place):
            put(place, digit)
            yield from search()
            take(place)

    for place, digit in enumerate(given):
        if digit != "0":
            put(place, digit)
    return search()


def different_network(given: str) -> list[str]:
    """The lines of a Sudoku of these digits, row by row, 0 where none is given."""
    lines = [f"domain digit {' '.join(DIGITS)}", "relation digits digit digit = d1 d1"]
    lines += [f"cell at{place} digit" for place in range(81)]
    for group in GROUPS:
        lines.append(f"attach different9 {' '.join(f'at{place}' for place in group)} by digits")
    return [*lines, *(f"fix at{place} d{it}" for place, it in enumerate(given) if it != "0")]


def easy(given: str) -> Puzzle:
    """What is filled without a choice."""
    return Puzzle(f"an easy Sudoku of {clues(given)} clues", different_network(given), [])


def hard(given: str) -> Puzzle:
    """Two choices for each cell of those with the fewest candidates; all else has to follow."""
    name = f"a hard Sudoku of {clues(given)} clues, {given[:9]}"
    return Puzzle(name, different_network(given), sudoku(given).choices)


ASKED = [f"ask at{place}" for place in range(81)]


def solved(puzzle: Puzzle, given: str) -> Case:
    """The puzzle, with the digit of each cell in the one solution that it has."""
    (solution,) = solutions(given)
    answers = [f"at{place} = d{digit}" for place, digit in enumerate(solution)]
    wanted = answered(len(puzzle.lines), *answers)
    return Case(f"wide puzzles: {puzzle.name}", puzzle.sent(*ASKED), wanted)


def given_ones() -> list[tuple[Puzzle, str]]:
    return [(easy(EASY), EASY), *((hard(given), given) for given in HARD)]


def sudokus() -> Iterator[Case]:
    yield from (solved(puzzle, given) for puzzle, given in given_ones())


# ---- what is run


def cases() -> Iterator[Case]:
    yield from small()
    yield from sudokus()
    yield ruler()
    yield tour()
    yield from one_ways()


def over_propwide(case: Case) -> Check:
    """The case over propwide, whichever program it is looked at with."""
    look: Callable[[str], Optional[str]] = case.wrong
    return Check(case.name, lambda _: look(PROGRAM))


# ---- a ruler

# Some distances of a ruler with six marks. By going through all marks up to 20, the last one is at
# 15 or behind. A search over these learned a nogood with two facts about one distance.
STILL = (
    "cell m2 span; fix m2 1..20; cell m3 span; cell m4 span; cell m5 span; cell m6 span; "
    "fix m6 0..20; cell d1 truth; fix d1 no; cell d2 span; cell d3 span; fix d3 1; attach "
    "sum m2 d3 d2; attach less m3 d2 d1; cell d4 span; attach sum m3 d3 d4; attach less m4 "
    "d4 d1; cell d5 span; attach sum m4 d3 d5; attach less m5 d5 d1; cell d6 span; attach "
    "sum m5 d3 d6; attach less m6 d6 d1; cell d7 span; attach sum d7 m2 m3; cell d8 span; "
    "attach sum d8 m2 m4; cell d9 span; attach sum d9 m2 m5; cell d10 span; cell d11 span; "
    "attach sum d11 m3 m4; cell d12 span; attach sum d12 m3 m5; cell d13 span; attach sum "
    "d13 m3 m6; cell d14 span; attach sum d14 m4 m5; cell d15 span; cell d16 span; attach "
    "sum d16 m5 m6; attach alike m2 d16 d1; attach alike m3 d11 d1; attach alike m3 d14 d1; "
    "attach alike m3 d16 d1; attach alike d7 d14 d1; attach alike d14 d16 d1; attach "
    "different8 m2 m3 m4 m5 m6 d7 d8 d9; attach different8 m6 d7 d8 d9 d10 d11 d12 d13; "
    "attach different7 d10 d11 d12 d13 d14 d15 d16"
)


def ruler() -> Case:
    """The least that the last mark can be, asked once the network has been run."""
    lines = STILL.split("; ")

    def wrong(output: bytes) -> Optional[str]:
        told = output.decode().splitlines()[len(lines) : len(lines) + 2]
        return None if told == ["settled", "least 15"] else f"{told}"

    return Case("a ruler's last mark", as_bytes(*lines, "settle", "least m6"), wrong)


# ---- a tour

# How many ends a tour has, and the seed of how far they are apart. A search over these learned a
# nogood with two numbers that aren't so of one cell, both of them by a decision.
ENDS, TOUR = 11, 28


def distances() -> list[list[int]]:
    """How far it is from each end to each other one."""
    chance, far = Random(TOUR), [[200] * ENDS for _ in range(ENDS)]
    for one in range(ENDS):
        for other in range(one):
            far[one][other] = far[other][one] = chance.randint(2, 44)
    return far


def shortest(far: list[list[int]]) -> int:
    """The length of the shortest tour: what is shortest from the first end to each other one,
    through each set of them."""
    best = {(1, 0): 0}
    for ends, last in product(range(1, 1 << ENDS, 2), range(ENDS)):
        for to in range(1, ENDS) if (ends, last) in best else ():
            if not ends >> to & 1:
                length = best[ends, last] + far[last][to]
                longer = (ends | 1 << to, to)
                best[longer] = min(best.get(longer, length), length)
    return min(best[(1 << ENDS) - 1, last] + far[last][0] for last in range(1, ENDS))


def steps(far: list[list[int]]) -> Iterator[str]:
    """Which end follows each, s1 and so on, and how far it is to there, c1 and so on."""
    names = [str(end) for end in range(1, ENDS + 1)]
    yield from (f"cell k{it} span; fix k{it} {it}" for it in sorted(set(chain(*far))))
    for it in names:
        yield f"cell n{it} span; fix n{it} {it}; cell s{it} span; fix s{it} 1..{ENDS}"
        yield f"cell c{it} span"
    for it, row in zip(names, far):
        others = " ".join(f"s{other}" for other in names if other != it)
        yield f"attach element{ENDS} s{it} {' '.join(f'k{far}' for far in row)} c{it}"
        yield f"attach differ{ENDS - 1} s{it} {others} s{it}; cell t{it} truth"
        yield f"attach alike s{it} n{it} t{it}; fix t{it} no"
    yield from (f"attach different2 s{one} s{other}" for one, other in combinations(names, 2))


def turns() -> Iterator[str]:
    """As the how manieth each end stands, u1 and so on, and the length of all steps."""
    ends = range(1, ENDS + 1)
    yield "cell one span; fix one 1"
    for it in ends:
        yield f"cell u{it} span; fix u{it} {'1' if it == 1 else f'2..{ENDS}'}"
        yield f"cell w{it} span; attach sum u{it} one w{it}"
    yield f"cell last span; fix last {ENDS + 1}"
    for it in ends:
        yield f"attach element{ENDS} s{it} last {' '.join(f'u{to}' for to in ends[1:])} w{it}"
        yield from (f"attach element_entry s{it} n{to} w{it} u{to}" for to in ends[1:])
    lengths = ["c1", *(f"q{it}" for it in ends[1:-1]), "total"]
    for it, (before, since) in enumerate(pairwise(lengths), 2):
        yield f"cell {since} span; attach sum {before} c{it} {since}"


def tour() -> Case:
    """The length of the shortest tour, which is found and shown to be that."""
    far = distances()
    lines = "; ".join(chain(steps(far), turns())).split("; ")
    wanted = f"least {shortest(far)}"

    def wrong(output: bytes) -> Optional[str]:
        told = output.decode().splitlines()[len(lines) + 1]
        return None if told == wanted else f"{told}, not {wanted}"

    return Case("a tour's length", as_bytes("limit 1000000000", *lines, "least total"), wrong)


# ---- procedures in one direction


def one_way(first: int, second: int) -> Case:
    """All that differ by `first` less c and `second` less c, and together are c: what each
    procedure says of one cell no other says the other way round, though it looks so."""
    lines = [
        *(f"cell {it} span" for it in "cabkl"),
        *("fix c 1..9", "fix a -20..20", "fix b -20..20", f"fix k {first}", f"fix l {second}"),
        *("attach subtracter k c a", "attach subtracter l c b", "attach adder a b c"),
    ]
    rows = [(c, first - c, second - c) for c in range(1, 10) if first + second - 2 * c == c]
    told = [f"c = {c} a = {a} b = {b}" for c, a, b in rows]
    wanted = (
        [f"plans {len(told)}", *told, "others none: no premise"] if told else ["none: no premise"]
    )
    return Case(
        f"one way: {first} and {second}",
        as_bytes(*lines, "plans 9 c a b"),
        as_bytes(*["ok"] * len(lines), *wanted),
    )


def one_ways() -> Iterator[Case]:
    return starmap(one_way, ((7, 7), (7, 8), (3, 0), (20, 7), (20, 8)))


def built() -> Iterator[Check]:
    """The Sudokus, a ruler, a tour and procedures in one direction over propwide, where it is
    built, and one of each STEP small ones."""
    if os.path.exists(PROGRAM):
        few = islice(small(), 0, None, STEP)
        yield from map(over_propwide, chain(sudokus(), [ruler(), tour()], one_ways(), few))


def instructions(program: str, sent: bytes) -> str:
    """How many million instructions the session takes, where valgrind can tell."""
    if not shutil.which("valgrind"):
        return "no valgrind"
    with tempfile.TemporaryDirectory() as folder:
        words = ["valgrind", "--tool=callgrind", f"--callgrind-out-file={folder}/out", program]
        ran = subprocess.run(words, input=sent, capture_output=True, check=True)
    counted = re.search(r"Collected : (\d+)", ran.stderr.decode())
    return f"{int(counted[1]) / 10**6:,.0f} million instructions" if counted else "not counted"


def main(words: list[str]) -> int:
    if len(words) != 1 or words[0].startswith("-"):
        print(__doc__)
        return 0 if words == ["--help"] else 2
    program = os.path.abspath(words[0])
    failed = 0
    for case in cases():
        look: Callable[[str], Optional[str]] = case.wrong
        wrong = look(program)
        if wrong:
            failed += 1
            print(f"{case.name}: {wrong}")
    for puzzle, _ in given_ones():
        sent = puzzle.sent(*ASKED)
        start = time.monotonic()
        subprocess.run([program], input=sent, capture_output=True, check=True)
        took = time.monotonic() - start
        print(f"{puzzle.name}: {took:.3f} s, {instructions(program, sent)}", flush=True)
    print(f"wide puzzles: {failed} failed")
    return 1 if failed else 0


if __name__ == "__main__":
    sys.exit(main(sys.argv[1:]))
