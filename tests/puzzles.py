"""Searches as sessions of choices: puzzles, and such that are drawn from a seed."""
import random
from dataclasses import dataclass, field
from itertools import combinations, product
from math import prod
from typing import Iterable, Iterator, Optional

from case import as_bytes


@dataclass
class Choice:
    """A choice between values of a cell, written as `choose` takes them."""

    name: str
    cell: str
    values: list[str]

    def line(self) -> str:
        return f"choose {self.name} {self.cell} {' or '.join(self.values)}"


@dataclass
class Puzzle:
    """A session of choices without its last line, and what `ask` then answers of a cell."""

    name: str
    network: list[str]
    choices: list[Choice]
    cell: str = ""
    answer: str = ""

    @property
    def lines(self) -> list[str]:
        return [*self.network, *(choice.line() for choice in self.choices)]

    @property
    def lists(self) -> int:
        return prod(len(choice.values) for choice in self.choices)

    def sent(self, *last: str) -> bytes:
        return as_bytes(*self.lines, *last)


def pairs(of: Iterable[tuple[str, str]]) -> str:
    return " ; ".join(f"{x} {y}" for x, y in of)


def choices_of(cells: Iterable[str], values: list[str]) -> list[Choice]:
    """A choice of all these values for each cell."""
    return [Choice(f"of_{cell}", cell, values) for cell in cells]


def one_by_one(cells: Iterable[str], values: list[str]) -> list[Choice]:
    """For each cell a choice between each value but the last and all others."""
    chosen = []
    for cell, value in product(cells, values[:-1]):
        rest = " ".join(it for it in values if it != value)
        chosen.append(Choice(f"{cell}_{value}", cell, [value, f"{{{rest}}}"]))
    return chosen


def all_different(kind: str, values: list[str]) -> str:
    differing = ((x, y) for x, y in product(values, values) if x != y)
    return f"relation differ {kind} {kind} = {pairs(differing)}"


def pigeons(count: int) -> Puzzle:
    """Pigeons of which no two sit in one hole, with a hole too few."""
    holes, birds = [f"h{n}" for n in range(1, count)], [f"p{n}" for n in range(1, count + 1)]
    lines = [f"domain hole {' '.join(holes)}", all_different("hole", holes)]
    lines += [f"cell {bird} hole" for bird in birds]
    lines += [f"attach link {x} {y} by differ" for x, y in combinations(birds, 2)]
    answer = "contradiction: no premise"
    return Puzzle(f"{count} pigeons", lines, choices_of(birds, holes), birds[0], answer)


def pigeons_by_holes(count: int) -> Puzzle:
    """The same, where each choice is between one hole and all others."""
    puzzle = pigeons(count)
    holes, birds = puzzle.choices[0].values, [choice.cell for choice in puzzle.choices]
    name = f"{count} pigeons told apart by one hole at a time"
    return Puzzle(name, puzzle.network, one_by_one(birds, holes), puzzle.cell, puzzle.answer)


def queens(count: int, first: str) -> Puzzle:
    """Queens on a board, one a column, of which none threatens another.

    The first rows in dictionary order are these."""
    numbers = range(1, count + 1)
    rows, columns = [f"r{n}" for n in numbers], [f"q{n}" for n in numbers]
    lines = [f"domain row {' '.join(rows)}"]
    for far in range(1, count):
        apart = [(x, y) for x, y in product(numbers, numbers) if abs(x - y) not in (0, far)]
        lines.append(f"relation apart{far} row row = {pairs((f'r{x}', f'r{y}') for x, y in apart)}")
    lines += [f"cell {column} row" for column in columns]
    lines += [f"attach link q{x} q{y} by apart{y - x}" for x, y in combinations(numbers, 2)]
    last, answer = columns[-1], f"{columns[-1]} = r{first[-1]}"
    return Puzzle(f"{count} queens", lines, choices_of(columns, rows), last, answer)


FLOORS, TENANTS = [f"f{n}" for n in range(1, 6)], "baker cooper fletcher miller smith".split()


def house() -> Iterator[str]:
    """Five tenants on five floors, and what is known of them."""
    numbers = range(1, 6)
    holding = {
        "differ": [(x, y) for x, y in product(numbers, numbers) if x != y],
        "over": [(x, y) for x, y in product(numbers, numbers) if x > y],
        "far": [(x, y) for x, y in product(numbers, numbers) if abs(x - y) > 1],
    }
    yield f"domain floor {' '.join(FLOORS)}"
    for name, held in holding.items():
        yield f"relation {name} floor floor = {pairs((f'f{x}', f'f{y}') for x, y in held)}"
    yield from (f"cell {tenant} floor" for tenant in TENANTS)
    yield from ["fix baker {f1 f2 f3 f4}", "fix cooper {f2 f3 f4 f5}", "fix fletcher {f2 f3 f4}"]
    yield "attach link miller cooper by over"
    yield "attach link smith fletcher by far"
    yield "attach link fletcher cooper by far"
    yield from (f"attach link {x} {y} by differ" for x, y in combinations(TENANTS, 2))


def tenants() -> Puzzle:
    chosen = choices_of(TENANTS, FLOORS)
    return Puzzle("tenants", [*house()], chosen, "miller", "miller = f5")


def tenants_by_floors() -> Puzzle:
    """The same, where each choice is between one floor and all others."""
    chosen, name = one_by_one(TENANTS, FLOORS), "tenants told apart by one floor at a time"
    return Puzzle(name, [*house()], chosen, "miller", "miller = f5")


@dataclass
class Colouring(Puzzle):
    """A random graph whose neighbours have different colours."""

    colours: list[str] = field(default_factory=list)
    edges: list[tuple[int, int]] = field(default_factory=list)

    @property
    def nodes(self) -> int:
        return len(self.choices)


def colouring(nodes: int, colours: int, edges: int, seed: int) -> Colouring:
    pick = random.Random(seed)
    names, drawn = [f"c{n}" for n in range(colours)], set[tuple[int, int]]()
    while len(drawn) < edges:
        x, y = sorted(pick.sample(range(nodes), 2))
        drawn.add((x, y))
    cells, kept = [f"v{n}" for n in range(nodes)], sorted(drawn)
    lines = [f"domain colour {' '.join(names)}", all_different("colour", names)]
    for cell in cells:
        lines += [f"cell {cell} colour", f"fix {cell} {{{' '.join(names)}}}"]
    lines += [f"attach link v{x} v{y} by differ" for x, y in kept]
    name = f"colour {nodes} {colours} {edges}, seed {seed}"
    return Colouring(name, lines, choices_of(cells, names), colours=names, edges=kept)


def first_colours(graph: Colouring) -> Optional[list[int]]:
    """The first colouring in dictionary order, by trying one node's colours after another's."""
    before = [[x for x, y in graph.edges if y == node] for node in range(graph.nodes)]
    taken: list[int] = []
    colour = 0
    while len(taken) < graph.nodes:
        used = {taken[neighbour] for neighbour in before[len(taken)]}
        colour = next((it for it in range(colour, len(graph.colours)) if it not in used), -1)
        if colour >= 0:
            taken.append(colour)
            colour = 0
        elif taken:
            colour = taken.pop() + 1
        else:
            return None
    return taken


def small_colouring(nodes: int, colours: int, edges: int, seed: int) -> Colouring:
    """A colouring with its answer, which is found by trying all."""
    graph = colouring(nodes, colours, edges, seed)
    first, graph.cell = first_colours(graph), graph.choices[-1].cell
    graph.answer = f"{graph.cell} = c{first[-1]}" if first else "contradiction: no premise"
    return graph


@dataclass
class Plan(Puzzle):
    """Tasks on people who do one thing at a time: the cell `end` is when all are done."""

    long: list[int] = field(default_factory=list)
    # The tasks of which the first ends before the second begins.
    before: list[tuple[int, int]] = field(default_factory=list)
    # Those of one person, of which either may come first.
    either: list[tuple[int, int]] = field(default_factory=list)


# No plan is longer.
LONGEST = 500


def plan(count: int, people: int, seed: int) -> Plan:
    """A plan with a choice for each two tasks of one person that may come in either order."""
    pick, tasks = random.Random(seed), range(count)
    long = [pick.randint(1, 9) for _ in tasks]
    before = [(i, j) for j in tasks for i in range(j) if pick.random() < 2 / count]
    reach = {*before}
    for k, i, j in product(tasks, repeat=3):
        if (i, k) in reach and (k, j) in reach:
            reach.add((i, j))
    either = [(i, j) for i, j in combinations(tasks, 2) if i % people == j % people]
    either = [it for it in either if it not in reach]
    lines = ["cell always truth", "fix always yes", "cell never truth", "fix never no"]
    lines += ["cell end span", f"fix end 0..{LONGEST}"]
    for i in tasks:
        lines += [f"cell s{i} span", f"fix s{i} 0..{LONGEST}", f"cell e{i} span", f"cell d{i} span"]
        lines += [f"fix d{i} {long[i]}", f"attach sum s{i} d{i} e{i}"]
        lines.append(f"attach less end e{i} never")
    lines += [f"attach less s{j} e{i} never" for i, j in before]
    chosen = []
    for i, j in either:
        name = f"o{i}_{j}"
        lines += [f"cell {it}{name} truth" for it in ["", "a", "b", "na", "nb"]]
        lines += [f"attach less s{j} e{i} a{name}", f"attach less s{i} e{j} b{name}"]
        lines += [f"attach not {name} a{name}", f"attach not a{name} na{name}"]
        lines += [f"attach not b{name} nb{name}", f"attach or na{name} nb{name} always"]
        chosen.append(Choice(f"k{name}", name, ["yes", "no"]))
    name = f"tasks {count} {people}, seed {seed}"
    return Plan(name, lines, chosen, "end", long=long, before=before, either=either)


# The sides of two choices for a cell of a Sudoku: one of each make one digit.
BANDS = ["{d1 d2 d3}", "{d4 d5 d6}", "{d7 d8 d9}"]
STEPS = ["{d1 d4 d7}", "{d2 d5 d8}", "{d3 d6 d9}"]

# There may be 64 choices, so that two are made for each of so many cells.
MOST_CELLS = 32

Candidates = list[set[str]]


def are_near(x: int, y: int) -> bool:
    """Whether two places of a Sudoku are in one row, column or box."""
    (a, b), (c, d) = divmod(x, 9), divmod(y, 9)
    return a == c or b == d or (a // 3, b // 3) == (c // 3, d // 3)


NEAR = [(x, y) for x, y in combinations(range(81), 2) if are_near(x, y)]
DIGITS = [f"d{n}" for n in range(1, 10)]


def candidates(given: str) -> Candidates:
    """The digits of each place that are left where single ones are taken from all near places."""
    left = [{f"d{digit}"} if digit != "0" else {*DIGITS} for digit in given]
    before: Candidates = []
    while before != left:
        before = [{*it} for it in left]
        for x, y in [*NEAR, *((y, x) for x, y in NEAR)]:
            if len(left[x]) == 1:
                left[y] -= left[x]
    return left


def sudoku_network(given: str) -> list[str]:
    lines = [f"domain digit {' '.join(DIGITS)}", all_different("digit", DIGITS)]
    lines += [f"cell at{place} digit" for place in range(81)]
    lines += [f"attach link at{x} at{y} by differ" for x, y in NEAR]
    lines += [f"fix at{place} d{digit}" for place, digit in enumerate(given) if digit != "0"]
    return lines


def sudoku(given: str) -> Puzzle:
    """A Sudoku of these digits, row by row, 0 where none is given.

    Two choices are made for each cell of those with the fewest candidates; all else has to follow.
    """
    left = candidates(given)
    places = sorted((it for it in range(81) if len(left[it]) > 1), key=lambda it: len(left[it]))
    chosen = []
    for place in places[:MOST_CELLS]:
        chosen.append(Choice(f"band{place}", f"at{place}", BANDS))
        chosen.append(Choice(f"step{place}", f"at{place}", STEPS))
    return Puzzle(f"Sudoku of {clues(given)} clues", sudoku_network(given), chosen)


def sudoku_by_cells(given: str) -> Puzzle:
    """The same, where each open cell in reading order has a choice of its candidates."""
    chosen = []
    for place, digits in enumerate(candidates(given)):
        if len(digits) > 1:
            chosen.append(Choice(f"of{place}", f"at{place}", sorted(digits)))
    name = f"Sudoku of {clues(given)} clues, a choice for each cell"
    return Puzzle(name, sudoku_network(given), chosen)


def clues(given: str) -> int:
    return 81 - given.count("0")
