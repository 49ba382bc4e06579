"""Questions of compare.py as other tools are asked them: MiniZinc, SWI-Prolog, clingo and z3.

Each function gives what the tool finds, in the form in which the workbench's answer is compared.
"""

import re
import shutil
import subprocess
import sys
import tempfile
from importlib import import_module
from pathlib import Path
from typing import Any

from marco import Sets
from wishes import conflicts_by_z3, wishes

sys.path.insert(0, str(Path(__file__).resolve().parents[2] / "tests"))

import peers  # noqa: E402
import puzzles  # noqa: E402

MODELS = Path(__file__).parent / "models"
# Seconds by the clock after which a tool is stopped.
SECONDS = 60.0
CLPFD = ":- use_module(library(clpfd)).\n"


class Missing(Exception):
    """That a tool isn't installed, by its name."""


class TooLong(Exception):
    """That a tool was stopped."""


def printed(words: list[str], text: str = "", ending: str = "") -> str:
    """What a tool prints of a program in a file, whose name stands last."""
    if shutil.which(words[0]) is None:
        raise Missing(words[0])
    with tempfile.NamedTemporaryFile("w", suffix=ending) as file:
        file.write(text)
        file.flush()
        try:
            ran = subprocess.run(
                [*words, file.name], capture_output=True, text=True, timeout=SECONDS
            )
        except subprocess.TimeoutExpired as cut:
            raise TooLong from cut
    return ran.stdout


def gecode(model: str, *words: str) -> str:
    """What MiniZinc prints of a model that Gecode solves."""
    if shutil.which("fzn-gecode") is None:
        raise Missing("fzn-gecode")
    return printed(["minizinc", "--solver", "gecode", *words], model, ".mzn")


def prolog(program: str) -> str:
    """What SWI-Prolog prints of a program with the goal `main`."""
    return printed(["swipl", "-g", "main", "-t", "halt"], CLPFD + program, ".pl")


def z3_library() -> Any:
    """z3 as a library."""
    try:
        return import_module("z3")
    except ImportError as error:
        raise Missing("python3-z3") from error


# All ways to put eight queens: how many.


def queens_by_gecode() -> int:
    return gecode((MODELS / "queens8.mzn").read_text(), "-a").count("----------")


def queens_by_prolog() -> int:
    return int(
        prolog(
            """
queens(Q) :- length(Q, 8), Q ins 1..8, all_distinct(Q),
    shifted(Q, 1, U), all_distinct(U), shifted(Q, -1, D), all_distinct(D), labeling([ff], Q).
shifted(Q, S, R) :- shifted(Q, S, 0, R).
shifted([], _, _, []).
shifted([Q|Qs], S, I, [R|Rs]) :- R #= Q + S * I, J is I + 1, shifted(Qs, S, J, Rs).
main :- findall(Q, queens(Q), All), length(All, N), writeln(N).
"""
        )
    )


def queens_by_clingo() -> int:
    told = printed(
        ["clingo", "0", "-q"],
        """
1 {at(R,C) : C=1..8} 1 :- R=1..8.   1 {at(R,C) : R=1..8} 1 :- C=1..8.
:- at(R,C), at(S,D), R<S, S-R=|C-D|.
""",
    )
    return int(re.findall(r"Models +: (\d+)", told)[0])


def queens_by_z3() -> int:
    z3 = z3_library()
    q = z3.Ints("q0 q1 q2 q3 q4 q5 q6 q7")
    solver, found = z3.Solver(), 0
    solver.add(*(z3.And(each >= 1, each <= 8) for each in q))
    for slope in (-1, 0, 1):
        solver.add(z3.Distinct(*(each + slope * row for row, each in enumerate(q))))
    while solver.check() == z3.sat:
        model, found = solver.model(), found + 1
        solver.add(z3.Or(*(each != model[each] for each in q)))
    return found


# The shortest plan: its length.


def plan_by_gecode(plan: puzzles.Plan) -> int:
    return int(re.findall(r"last = (\d+)", gecode(peers.model(plan)))[-1])


def plan_by_prolog(plan: puzzles.Plan) -> int:
    names = [f"S{i}" for i in range(len(plan.long))]
    goals = [f"[Last,{','.join(names)}] ins 0..{puzzles.LONGEST}"]
    goals += [f"S{i} + {long} #=< Last" for i, long in enumerate(plan.long)]
    goals += [_ended(plan, "S{}", "{} + {} #=< {}", *pair) for pair in plan.before]
    for i, j in plan.either:
        one, other = (_ended(plan, "S{}", "({} + {} #=< {})", *pair) for pair in ((i, j), (j, i)))
        goals.append(f"{one} #\\/ {other}")
    goals.append(f"once(labeling([ff, min(Last)], [Last,{','.join(names)}])), writeln(Last)")
    return int(prolog("main :- " + ",\n".join(goals) + ".\n"))


def plan_by_clingo(plan: puzzles.Plan) -> int:
    facts = [f"long({i},{long})." for i, long in enumerate(plan.long)]
    facts += [f"before({i},{j})." for i, j in plan.before]
    facts += [f"either({i},{j})." for i, j in plan.either]
    told = printed(
        ["clingo", "--quiet=1,1"],
        "\n".join(facts)
        + f"""
#const most={sum(plan.long)}.
1 {{at(T,S) : S=0..most-L}} 1 :- long(T,L).
1 {{last(D) : D=0..most}} 1.
:- at(T,S), long(T,L), last(D), S+L > D.
1 {{first(I,J); first(J,I)}} 1 :- either(I,J).
after(I,J) :- before(I,J).   after(I,J) :- first(I,J).
:- after(I,J), at(I,S), long(I,L), at(J,T), T < S+L.
#minimize {{D : last(D)}}.
""",
    )
    if "OPTIMUM FOUND" not in told:
        raise TooLong
    return int(re.findall(r"Optimization : (\d+)", told)[-1])


def plan_by_z3(plan: puzzles.Plan) -> int:
    z3 = z3_library()
    starts = [z3.Int(f"s{i}") for i in range(len(plan.long))]
    last, best = z3.Int("last"), z3.Optimize()
    best.set("timeout", int(SECONDS * 1000))
    best.add(*(each >= 0 for each in starts))
    best.add(*(each + long <= last for each, long in zip(starts, plan.long)))
    best.add(*(starts[i] + plan.long[i] <= starts[j] for i, j in plan.before))
    for i, j in plan.either:
        one, other = (starts[a] + plan.long[a] <= starts[b] for a, b in ((i, j), (j, i)))
        best.add(z3.Or(one, other))
    best.minimize(last)
    if best.check() != z3.sat:
        raise TooLong
    return int(best.model()[last].as_long())


def _ended(plan: puzzles.Plan, name: str, form: str, first: int, second: int) -> str:
    return form.format(name.format(first), plan.long[first], name.format(second))


# What follows at the end of a chain, with a premise and without: both answers of the last round.

Spans = tuple[tuple[int, int], tuple[int, int]]


def what_if_by_gecode(cells: int) -> Spans:
    def end(goal: str, low: int, high: int) -> int:
        told = gecode(
            f"array[0..{cells}] of var -9999..9999: x;"
            f"constraint x[0] >= {low} /\\ x[0] <= {high};"
            f"constraint forall(i in 1..{cells})(x[i] = x[i-1] + 1);"
            f"solve {goal} x[{cells}]; output [show(x[{cells}])];"
        )
        return int(re.findall(r"^-?\d+", told, re.MULTILINE)[-1])

    def span(low: int, high: int) -> tuple[int, int]:
        return end("minimize", low, high), end("maximize", low, high)

    return span(-5000, 5000), span(0, 10)


def what_if_by_prolog(cells: int, rounds: int) -> Spans:
    told = prolog(
        f"""
links([X,Y|R]) :- Y #= X + 1, links([Y|R]).
links([_]).
main :- N is {cells} + 1, length(L, N), L = [A|_], last(L, Z), A in -5000..5000, links(L),
    forall(between(1, {rounds}, _), (ask(Z), \\+ \\+ (A in 0..10, ask(Z)))).
ask(Z) :- fd_inf(Z, Low), fd_sup(Z, High), writeln(Low-High).
"""
    )
    found = [(int(low), int(high)) for low, high in re.findall(r"(-?\d+)-(-?\d+)", told)]
    return found[-2], found[-1]


def what_if_by_z3(cells: int, rounds: int, known: Spans) -> Spans:
    """It is told the spans, and shows only that nothing lies beyond them."""
    z3 = z3_library()
    x, flag, solver = [z3.Int(f"x{i}") for i in range(cells + 1)], z3.Bool("start"), z3.Solver()
    solver.add(x[0] >= -5000, x[0] <= 5000, z3.Implies(flag, z3.And(x[0] >= 0, x[0] <= 10)))
    solver.add(*(y == z + 1 for y, z in zip(x[1:], x)))
    for _ in range(rounds):
        for (low, high), believed in zip(known, ((), (flag,))):
            for beyond in (x[-1] < low, x[-1] > high):
                solver.push()
                solver.add(beyond)
                assert solver.check(*believed) == z3.unsat
                solver.pop()
    return known


# Why: the least premises that an answer rests on.


def why_by_z3(sums: int, others: int) -> set[str]:
    """It is told the answer, and reduces the premises of both unsatisfiable cores by trying
    each."""
    z3 = z3_library()
    x, d = ([z3.Int(f"{name}{i}") for i in range(sums + 1)] for name in "xd")
    solver, flags = z3.Solver(), {}
    solver.add(x[0] == 0, *(x[i + 1] == x[i] + d[i] for i in range(sums)))
    for i in range(sums):
        for k in range(others):
            flag = flags[f"d{i}of{k}"] = z3.Bool(f"d{i}of{k}")
            solver.add(z3.Implies(flag, z3.And(d[i] >= -k, d[i] <= 10 + k)))
    needed: set[str] = set()
    for beyond in (x[sums] < 0, x[sums] > 10 * sums):
        solver.push()
        solver.add(beyond)
        assert solver.check(*flags.values()) == z3.unsat
        core = {str(each) for each in solver.unsat_core()}
        for name in sorted(core):
            if name in core and solver.check([flags[it] for it in core - {name}]) == z3.unsat:
                core = {str(each) for each in solver.unsat_core()}
        needed |= core
        solver.pop()
    return needed


# All minimal conflicts and repairs.


def conflicts_there(count: int, seed: int) -> tuple[Sets, Sets]:
    conflicts, repairs, is_all = conflicts_by_z3(z3_library(), wishes(count, seed), 1000, SECONDS)
    if not is_all:
        raise TooLong
    return conflicts, repairs
