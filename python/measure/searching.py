#!/usr/bin/python3
"""Searches for points by propwide, beside MiniZinc with Gecode, and clingo.

usage: measure/searching.py [--only WORD] [--seconds N] [--seeds N] [--sketch PROGRAM]

- the shortest plans of 30, 80, 160 and 300 tasks of three, four or eight people, of so many seeds
  (10), and of job shops, whose shortest are known: `least end`;
- all ways to put eight and ten queens: `plans`, with the cells of all queens;
- a ruler with seven marks of which no two are as far apart as two others, the shortest: `least`;
- five Sudokus: `solve`, and `plans`, to see that there is no other.

The networks are drawn by the Python package, or in the Sudokus' case written as lines, before
anything is measured. Told are seconds of one processor of one run of each tool, from reading what
it is given to the end of its process: the median of what a row stands for, and the most. What takes
more than N is cut, and told as `>`. So is what takes more than 4 GB of memory. What isn't installed
is named, and nothing stands for it. Each tool has to come to the same, or the status is 1.

PROGRAM is the search that was tried before there was one with a proof, as a program that answers
the same questions in words of its own.
"""

import argparse
import re
import resource
import shutil
import statistics
import subprocess
import sys
import tempfile
from collections.abc import Callable, Iterator
from dataclasses import dataclass
from functools import partial
from itertools import combinations
from math import inf
from pathlib import Path

sys.path.insert(0, str(Path(__file__).resolve().parents[1] / "src"))
sys.path.insert(0, str(Path(__file__).resolve().parents[2] / "tests"))

import peers  # noqa: E402
import shops  # noqa: E402
import wide_puzzles  # noqa: E402
from shops import SHOPS, SHORTEST, Work  # noqa: E402
from spent import Spent  # noqa: E402
from talking import reply_of  # noqa: E402

from propbench import Workbench, all_different, find_wide  # noqa: E402

# So many steps a line takes, so that the best so far is told; so many lines go at once.
SLICE, AT_ONCE = 4_000_000, 500
MEMORY = 4 << 30
# Where so many are asked for, all are.
ALL = 1_000_000
RULER, LONGEST = 7, 30
SUDOKUS = [*wide_puzzles.HARD, *peers.SUDOKUS[1:2]]
TASKS = ((30, 3), (80, 4), (160, 4), (300, 8))


@dataclass(frozen=True)
class Search:
    """What is asked of a network, and how others are: by MiniZinc and clingo with these words. What
    is found is an optimum, or how many plans there are, and known in some cases."""

    lines: Callable[[], list[str]]
    question: str
    model: str
    words: tuple[str, ...]
    rules: str
    clingo: tuple[str, ...]
    known: int | None = None
    sketch: str = "-wd"


# ---- what is searched for


def saved(w: Workbench) -> list[str]:
    """The lines of a workbench, which is closed."""
    with w, tempfile.TemporaryDirectory() as room:
        w.save(f"{room}/saved.prop")
        lines = Path(f"{room}/saved.prop").read_text().splitlines()
    return [line for line in lines if not line.startswith("#")]


def work(what: Work, known: int | None = None) -> Search:
    """The shortest plan."""
    lines = partial(lambda each: saved(each.bench()), what)
    return Search(lines, "least end", what.model(), (), what.rules(), ("--quiet=1,1",), known)


def queens(count: int) -> Search:
    """All ways to put so many queens."""

    def lines() -> list[str]:
        w = Workbench()
        q = [w.number(f"q{row}", 1, count) for row in range(count)]
        for slope in (-1, 0, 1):
            w.require(all_different(*(each + slope * row for row, each in enumerate(q))))
        return saved(w)

    model = f"""include "all_different.mzn"; array[1..{count}] of var 1..{count}: q;
        constraint forall(slope in -1..1)(all_different([q[i] + slope * i | i in 1..{count}]));
        solve :: int_search(q, first_fail, indomain_min, complete) satisfy;"""
    rules = f"""1 {{at(R,C) : C=1..{count}}} 1 :- R=1..{count}.
        1 {{at(R,C) : R=1..{count}}} 1 :- C=1..{count}.
        :- at(R,C), at(S,D), R<S, S-R=|C-D|. #show."""
    named = " ".join(f"q{row}" for row in range(count))
    known = {8: 92, 10: 724}[count]
    words = ("0", "-q")
    return Search(lines, f"plans {ALL} {named}", model, ("-a",), rules, words, known, "-ff -chrono")


def ruler() -> Search:
    """The shortest ruler."""

    def lines() -> list[str]:
        w = Workbench()
        marks = [w.number(f"m{i}", 0, LONGEST) for i in range(RULER)]
        w.require(marks[0] == 0)
        for one, other in zip(marks, marks[1:]):
            w.require(one < other)
        w.require(all_different(b - a for a, b in combinations(marks, 2)))
        return saved(w)

    model = f"""include "all_different.mzn"; array[1..{RULER}] of var 0..{LONGEST}: m;
        constraint m[1] = 0 /\\ forall(i in 2..{RULER})(m[i-1] < m[i]);
        constraint all_different([m[j] - m[i] | i, j in 1..{RULER} where i < j]);
        solve :: int_search(m, input_order, indomain_min, complete) minimize m[{RULER}];
        output ["last = \\(m[{RULER}]);\\n"];"""
    rules = f"""1 {{at(I,M) : M=0..{LONGEST}}} 1 :- I=1..{RULER}. at(1,0).
        :- at(I,A), at(I+1,B), B <= A.
        far(I,J,B-A) :- at(I,A), at(J,B), I < J, A < B.
        :- far(I,J,D), far(K,L,D), (I,J) < (K,L).
        #minimize {{M : at({RULER},M)}}. #show."""
    question = f"least m{RULER - 1}"
    return Search(lines, question, model, (), rules, ("--quiet=1,1",), 25)


def sudoku(given: str, is_all: bool) -> Search:
    """A Sudoku's solution, or that it is the only one."""
    digits = ",".join(given)
    model = f"""include "all_different.mzn"; array[0..8, 0..8] of var 1..9: s;
        array[0..8, 0..8] of int: given = array2d(0..8, 0..8, [{digits}]);
        constraint forall(i, j in 0..8 where given[i,j] > 0)(s[i,j] = given[i,j]);
        constraint forall(i in 0..8)(all_different([s[i,j] | j in 0..8]));
        constraint forall(j in 0..8)(all_different([s[i,j] | i in 0..8]));
        constraint forall(a, b in {{0, 3, 6}})(all_different([s[a+i,b+j] | i, j in 0..2]));
        solve :: int_search([s[i,j] | i, j in 0..8], first_fail, indomain_min, complete) satisfy;"""
    facts = [f"at({n // 9},{n % 9},{it})." for n, it in enumerate(given) if it != "0"]
    rules = """1 {at(Y,X,D) : D=1..9} 1 :- Y=0..8, X=0..8.
        :- at(Y,X,D), at(Y,Z,D), X < Z.   :- at(Y,X,D), at(Z,X,D), Y < Z.
        :- at(Y,X,D), at(V,U,D), Y/3 = V/3, X/3 = U/3, (Y,X) < (V,U). #show."""
    named = " ".join(f"at{place}" for place in range(81))
    return Search(
        partial(wide_puzzles.different_network, given),
        f"plans {ALL} {named}" if is_all else "solve",
        model,
        ("-a",) if is_all else (),
        "\n".join([*facts, rules]),
        ("0", "-q") if is_all else ("1", "-q"),
        1,
        "-ff -chrono",
    )


def rows(seeds: int) -> Iterator[tuple[str, Callable[[], list[Search]]]]:
    """What is searched for, with what each row of the table stands for."""
    for count, people in TASKS:
        several = [(count, people, seed) for seed in range(1, seeds + 1)]
        yield f"{count} tasks, {people} people", partial(
            lambda drawn: [work(shops.tasks(*each)) for each in drawn], several
        )
    for name in SHOPS:
        yield f"job shop {name}", partial(lambda it: [work(shops.shop(it), SHORTEST[it])], name)
    for count in (8, 10):
        yield f"{count} queens, all", partial(lambda it: [queens(it)], count)
    yield f"ruler of {RULER} marks", lambda: [ruler()]
    yield "Sudokus", lambda: [sudoku(each, False) for each in SUDOKUS]
    yield "Sudokus, no other", lambda: [sudoku(each, True) for each in SUDOKUS]


# ---- how each tool is asked


class Cut(Exception):
    """That a tool was cut, with the best that was found."""


def limited(seconds: int) -> None:
    """From now on this process has so many seconds, and so much memory."""
    resource.setrlimit(resource.RLIMIT_CPU, (seconds, seconds))
    resource.setrlimit(resource.RLIMIT_AS, (MEMORY, MEMORY))


@dataclass
class Run:
    """propwide at work, and the best that it told so far."""

    ran: "subprocess.Popen[str]"
    best: str = ""
    found: int = 0

    def read(self) -> str:
        assert self.ran.stdout
        line = self.ran.stdout.readline()
        if not line:
            raise Cut(self.best)
        return line.rstrip("\n")

    def say(self, lines: list[str]) -> None:
        assert self.ran.stdin
        try:
            self.ran.stdin.write("".join(f"{line}\n" for line in lines))
            self.ran.stdin.flush()
        except BrokenPipeError as error:
            raise Cut(self.best) from error

    def carry_out(self, lines: list[str]) -> None:
        """Says lines that have to be answered `ok`."""
        for first in range(0, len(lines), AT_ONCE):
            some = lines[first : first + AT_ONCE]
            self.say(some)
            for line in some:
                reply = self.read()
                if reply != "ok":
                    raise ValueError(f"{line}: {reply}")

    def ask(self, question: str) -> int | None:
        """What is found, None where the next line goes on."""
        self.say([question])
        reply = reply_of(question, self.read)
        word, _, number = reply[0].partition(" ")
        if word == "plans":
            self.found += len(reply) - 2
            self.best = f"{self.found} so far"
            return self.found if reply[-1].startswith("others none:") else None
        if word in ("least", "none:"):
            return int(number) if word == "least" else 0
        cell = f"{question.split()[-1]} = "
        better = [it.removeprefix(cell) for it in reply[1:] if it.startswith(cell)]
        self.best = f"{better[0]} so far" if better else self.best
        return 1 if question == "solve" and word == "plan" else None


def by_propwide(search: Search, lines: list[str], seconds: int) -> int:
    """What propwide finds."""
    pipe, limits = subprocess.PIPE, partial(limited, seconds)
    with subprocess.Popen(
        [find_wide().path], stdin=pipe, stdout=pipe, text=True, preexec_fn=limits
    ) as ran:
        run = Run(ran)
        run.carry_out([*lines, f"limit {SLICE}"])
        found = run.ask(search.question)
        while found is None:
            found = run.ask(search.question)
        return found


def by_sketch(program: str, search: Search, lines: list[str], seconds: int) -> int:
    """What the search finds that was tried first."""
    pipe, limits = subprocess.PIPE, partial(limited, seconds)
    with subprocess.Popen([program], stdin=pipe, stdout=pipe, text=True, preexec_fn=limits) as ran:
        run = Run(ran)
        # (it has no such rules, and the pairs beside them say as much of points)
        run.carry_out([line for line in lines if not re.match(r"attach differ\d", line)])
        run.say([f"{search.question} {search.sketch}"])
        told = run.read()
        read = re.fullmatch(r"plans (\d+) whole (true|false) .*", told)
        assert read, told
        count, is_whole = read.groups()
        plans = [run.read() for _ in range(int(count))]
    best = re.search(r"=(-?\d+)", plans[-1]) if search.question.startswith("least") else None
    if is_whole == "false" and search.question != "solve":
        raise Cut(f"{best[1] if best else count} so far")
    return int(best[1] if best else count)


def printed(words: list[str], text: str, ending: str, seconds: int) -> str:
    """What a tool prints of a text in a file, whose name stands last."""
    with tempfile.NamedTemporaryFile("w", suffix=ending) as file:
        file.write(text)
        file.flush()
        command = [*words, file.name]
        ran = subprocess.run(
            command, capture_output=True, text=True, preexec_fn=partial(limited, seconds)
        )
    return ran.stdout


def by_gecode(search: Search, _lines: list[str], seconds: int) -> int:
    """What MiniZinc finds with Gecode."""
    words = ["minizinc", "--solver", "gecode", *search.words]
    told = printed(words, search.model, ".mzn", seconds)
    lasts = re.findall(r"last = (\d+)", told)
    found = told.count("----------")
    is_ended = "==========" in told or ("-a" not in words and not lasts and found)
    if not is_ended:
        raise Cut(f"{lasts[-1]} so far" if lasts else "")
    return int(lasts[-1]) if lasts else found


def by_clingo(search: Search, _lines: list[str], seconds: int) -> int:
    """What clingo finds."""
    told = printed(["clingo", *search.clingo], search.rules, ".lp", seconds)
    optima = re.findall(r"Optimization : (\d+)", told)
    if "OPTIMUM FOUND" in told:
        return int(optima[-1])
    models = re.search(r"^Models +: (\d+)(\+?)", told, flags=re.M)
    if optima or models is None or (models[2] and search.clingo[0] == "0"):
        raise Cut(f"{optima[-1]} so far" if optima else "")
    return int(models[1])


Tool = Callable[[Search, list[str], int], int]
TOOLS: dict[str, Tool] = {"propwide": by_propwide, "Gecode": by_gecode, "clingo": by_clingo}
PROGRAMS = {"Gecode": ("minizinc", "fzn-gecode"), "clingo": ("clingo",)}


def missing(tool: str) -> str:
    """The programs of a tool that aren't installed."""
    return " ".join(it for it in PROGRAMS.get(tool, ()) if shutil.which(it) is None)


# ---- what is told


@dataclass
class Column:
    """What a tool took for what a row stands for, and what it found."""

    taken: list[float]
    found: list[int | None]
    cut: list[str]

    def text(self, seconds: int) -> str:
        """The median and the most."""
        if not self.taken:
            return f"{'':16}"
        both = (statistics.median_high(self.taken), max(self.taken))
        return "".join(f"{f'>{seconds}' if it == inf else f'{it:.2f}':>8}" for it in both)


def column(tool: str, searches: list[Search], drawn: list[list[str]], seconds: int) -> Column:
    """What a tool takes for each search."""
    made = Column([], [], [])
    for search, lines in zip(searches, [] if missing(tool) else drawn):

        def run() -> int | Cut:
            try:
                return TOOLS[tool](search, lines, seconds)
            except Cut as cut:
                return cut

        spent = Spent.of(run)
        is_cut = isinstance(spent.result, Cut)
        made.taken.append(inf if is_cut else spent.seconds)
        made.found.append(spent.result if isinstance(spent.result, int) else None)
        if is_cut:
            made.cut.append(f"{tool}: {spent.result or 'nothing'}")
    return made


def wrong(searches: list[Search], columns: dict[str, Column]) -> list[str]:
    """What tools found that isn't known to be so, or isn't what the others found."""
    said = []
    for at, search in enumerate(searches):
        found = {tool: it.found[at] for tool, it in columns.items() if it.found}
        several = {search.known, *found.values()} - {None}
        if len(several) > 1:
            said.append(f"WRONG: {found}, known is {search.known}")
    return said


def main(words: list[str]) -> int:
    """Measures, and prints a row for each kind."""
    read = argparse.ArgumentParser(
        description=__doc__, formatter_class=argparse.RawTextHelpFormatter
    )
    read.add_argument("--only", default="", metavar="WORD", help="rows that have this word")
    read.add_argument("--seconds", type=int, default=60, metavar="N", help="of each run (60)")
    read.add_argument("--sketch", metavar="PROGRAM", help="the search that was tried first")
    read.add_argument("--seeds", type=int, default=10, metavar="N", help="of tasks (10)")
    options = read.parse_args(words)
    if options.sketch:
        TOOLS["sketch"] = partial(by_sketch, options.sketch)
    for tool in (it for it in TOOLS if missing(it)):
        print(f"{missing(tool)} not installed: nothing stands for {tool}")
    print(f"{'':24}{'':>4}" + "".join(f"{tool:>16}" for tool in TOOLS) + "  found")
    print(f"{'':28}" + f"{'median':>8}{'most':>8}" * len(TOOLS))
    status = 0
    for name, made in (it for it in rows(options.seeds) if options.only in it[0]):
        searches = made()
        drawn = [each.lines() for each in searches]
        columns = {it: column(it, searches, drawn, options.seconds) for it in TOOLS}
        said = [" ".join(dict.fromkeys(map(str, columns["propwide"].found)))]
        said += [it for each in columns.values() for it in each.cut] + wrong(searches, columns)
        status = status or int(any(it.startswith("WRONG") for it in said))
        told = "".join(it.text(options.seconds) for it in columns.values())
        print(f"{name:24}{len(searches):4}{told}  {'; '.join(said)}", flush=True)
    return status


if __name__ == "__main__":
    sys.exit(main(sys.argv[1:]))
