"""Bests that are asked for in parts by an executor, beside all points, and the same without one.

Workers that die, refuse and run elsewhere cost no answer; and a certificate without one of the
parts is none.
"""

import json
import random
from collections.abc import Callable, Iterable, Iterator
from concurrent.futures import Executor, Future, ProcessPoolExecutor, ThreadPoolExecutor
from hashlib import sha256
from itertools import product
from typing import Any

import pytest
from conftest import TIMES
from test_chains import DAYS, Drawn, Case, project_of, soonest
from test_limits import Never
from test_what_ifs import Deadly, Full

from propbench import Certificate, Workbench
from propbench.questions import CertificateError

MOST = 7
NAMES = ("x", "y", "z")
At = dict[str, int]
# Constraints as a workbench has them, and in whole numbers.
RULES: list[tuple[Callable[[Any, Any, int], Any], Callable[[int, int, int], bool]]] = [
    (lambda x, y, n: x + y >= n, lambda x, y, n: x + y >= n),
    (lambda x, y, n: x + y <= n, lambda x, y, n: x + y <= n),
    (lambda x, y, n: x * y != n, lambda x, y, n: x * y != n),
    (lambda x, y, n: 2 * x - y <= n, lambda x, y, n: 2 * x - y <= n),
    (lambda x, y, n: (x < n) | (y >= n), lambda x, y, n: x < n or y >= n),
    (lambda x, y, n: x % 3 != y % 3, lambda x, y, n: x % 3 != y % 3),
]
Row = tuple[int, str, str, int]


@pytest.fixture(autouse=True)
def over_propwide(wide: str, monkeypatch: pytest.MonkeyPatch) -> None:
    monkeypatch.setenv("PROPBENCH", wide)


@pytest.fixture(scope="module")
def threads() -> Iterator[Executor]:
    with ThreadPoolExecutor(4) as executor:
        yield executor


def drawn(draw: random.Random) -> list[Row]:
    """Rules with their cells and a number, each under a premise of its own."""
    return [
        (draw.randrange(len(RULES)), *draw.sample(NAMES, 2), draw.randint(1, 9))  # type: ignore
        for _ in range(draw.randint(2, 8))
    ]


def made(rows: list[Row], first: str = "", choice: str = "") -> Workbench:
    """A workbench of rows; in which the values of a cell come first, or are a choice."""
    w = Workbench()
    cells = {name: w.number(name, 0, MOST) for name in NAMES}
    for place, (rule, one, other, number) in enumerate(rows):
        w.require(RULES[rule][0](cells[one], cells[other], number), under=f"p{place}")
    if first:
        w.try_first(([cells[first]], False))
    if choice:
        w.choose("pick", cells[choice], [(0, 2), 4, (5, MOST)])
    return w


def points(rows: list[Row], premises: Iterable[str], choice: str = "") -> Iterator[At]:
    """All points at which these premises hold."""
    kept = [rows[int(name[1:])] for name in premises]
    for values in product(range(MOST + 1), repeat=len(NAMES)):
        at = dict(zip(NAMES, values))
        if choice and at[choice] == 3:
            continue
        if all(RULES[rule][1](at[one], at[other], number) for rule, one, other, number in kept):
            yield at


def test_parts_have_the_best_of_all(threads: Executor) -> None:
    """By all points, as without an executor; by what the premises say alone nothing is better."""
    found = none = 0
    for seed in range(40 * TIMES):
        draw = random.Random(seed)
        rows, name = drawn(draw), draw.choice(NAMES)
        first = draw.choice(["", *NAMES])
        choice = draw.choice(["", "", *NAMES])
        sort, best_of = draw.choice([("least", min), ("greatest", max)])
        with made(rows, first, choice) as w:
            best = getattr(w, sort)(name, executor=threads)
            alone = getattr(w, sort)(name)
            assert (best.value, best.proved) == (alone.value, True) and best.bound == best.value
            told = [at[name] for at in points(rows, w.premises, choice)]
            assert best.certificate.check()
        by = [at[name] for at in points(rows, best.because, choice)]
        if told:
            assert best.value == best_of(told) == best_of(by)
            assert best.plan is not None and best.plan in points(rows, w.premises, choice)
            found += 1
        else:
            assert best.value is None and by == []
            none += 1
    assert found > 20 and none


def test_plans_of_tasks_in_parts(threads: Executor) -> None:
    """A plan is parted by which of two tasks comes first."""
    looked = 0
    for seed in range(8 * TIMES):
        draw = random.Random(seed)
        tasks = [
            Drawn(
                draw.randint(1, 2),
                (draw.choice(("ana", "ben")),),
                tuple({draw.randrange(n)} if n else ()),
            )
            for n in range(4)
        ]
        case = Case(tuple(tasks[:3] + [Drawn(1, ("ana", "ben"), ())]), (1, 2))
        with Workbench() as w:
            p = project_of(w, case)
            best = w.least(p.end, executor=threads)
            if best.value is None:
                continue
            assert best.value == soonest(case, w.premises) == soonest(case, best.because)
            assert best.schedule is not None and best.certificate.check()
            looked += 1
    assert looked > 3 and DAYS == 8


def hard() -> Workbench:
    """The least z is 23: 60 is 6 times 10 and 10 times 6, as whole numbers x and y may be, and 22
    is ruled out; and 9 is the most that x may be."""
    w = Workbench()
    x, y, z = (w.number(name, 0, 50) for name in NAMES)
    w.require(x * y >= 60, under="area")
    w.require(z == x + 2 * y)
    w.require(z != 22, under="not 22")
    w.require(x <= 9, under="narrow")
    return w


def best_by_hand() -> int:
    return min(
        x + 2 * y
        for x, y in product(range(10), range(51))
        if x * y >= 60 and x + 2 * y != 22 and x + 2 * y <= 50
    )


def test_by_processes_and_by_workers_that_die() -> None:
    with hard() as w:
        alone = w.least("z")
        assert alone.value == best_by_hand()
        with ProcessPoolExecutor(2) as processes:
            by_processes = w.least("z", executor=processes)
        with Deadly(2) as deadly:
            by_few = w.least("z", executor=deadly)
        by_none = w.least("z", executor=Full())
        for best in (by_processes, by_few, by_none):
            assert best.value == alone.value and best.proved
            assert {*best.because} == {"area", "not 22", "narrow"} and best.certificate.check()


class Wrong(Executor):
    """An executor whose jobs all fail, each with an error of its own."""

    def submit(self, fn: Any, /, *args: Any, **kwargs: Any) -> "Future[Any]":
        future: "Future[Any]" = Future()
        future.set_exception(ZeroDivisionError("of a worker"))
        return future


def test_workers_that_raise_and_several_goals() -> None:
    with hard() as w:
        best = w.least(["z", "y"], executor=Wrong())
        assert best.values == w.least(["z", "y"]).values and best.proved
        assert [step.certificate.check() for step in best.steps] == [True, True]


def test_there_is_no_time() -> None:
    """Of what no worker comes to nothing is known but what follows without a search."""
    with hard() as w:
        best = w.least("z", executor=Never(), seconds=0.1)
        assert (best.value, best.proved, best.because) == (None, False, ())
        assert best.bound is None or best.bound <= best_by_hand()
        with pytest.raises(ValueError, match="nothing that a certificate could show"):
            best.certificate.lines


def test_a_program_that_does_not_search_is_asked_here(program: str) -> None:
    with Workbench(program) as w:
        x = w.number("x", 3, 9)
        assert w.least(x, executor=Full()).value == 3


def without_a_case(lines: tuple[str, ...]) -> Certificate:
    """The same certificate, but for the last case of its tree."""
    evidence = json.loads(lines[2])
    [[key, tree]] = evidence["trees"]
    assert len(tree[1]) > 1 and tree[1].pop()
    evidence["trees"] = [[key, tree]]
    changed = [*lines[:2], json.dumps(evidence), *lines[3:-1]]
    return Certificate([*changed, sha256("\n".join(changed).encode()).hexdigest()])


def test_a_certificate_has_all_parts(threads: Executor) -> None:
    with hard() as w:
        lines = w.least("z", executor=threads).certificate.lines
    assert Certificate(lines).check()
    with pytest.raises(CertificateError, match="a case of z is left out"):
        without_a_case(lines).check()
    with hard() as w:
        w.try_first(([w.cell("x")], False))
        lines = w.least("z", executor=threads).certificate.lines
    with pytest.raises(CertificateError, match="a case of x is left out"):
        without_a_case(lines).check()
