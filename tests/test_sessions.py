"""Runs whole sessions over the built program and compares what it writes with what is wanted.

usage: pytest-3 tests [--program PATH] [--jobs N] [-k WORD] [--lf] [--collect-only]

PATH is crates/propbench/out/propbench where it is left out. What is run:

- each session of tests/sessions/*.session: `== ` and a title begin one, with options of the program
  in brackets behind it; a line of input stands behind `> `, and below it the replies that it wants;
  in input \\t, \\r and \\xNN are those bytes;
- each NAME.prop in examples/, whose replies are NAME.out beside it;
- the sessions of README.md and docs/ (tests/documents.py), and these texts themselves: how long
  they are, links and names (tests/pages.py);
- the handbook in HTML that tools/handbook makes of these texts (tests/handbook.py);
- how long the lines of the crates are (tests/lines.py);
- what docs/PIPE.md tells who drives the program from another: its examples, and how lines and
  replies go (tests/pipe.py);
- sessions that are made: large ones, command lines, devices that fail (tests/made.py);
- an example of each use in each compound of the prelude (tests/prelude.py);
- each procedure of the kit on small informations, against plain enumeration (tests/rules.py), and
  those beside the kit over propwide, where that is built (tests/wide_rules.py), and values that
  all differ, and Sudokus (tests/wide_puzzles.py), and tasks that share a resource
  (tests/many_rules.py) or pause (tests/pause_rules.py), sums and rows (tests/row_rules.py), and
  random networks over the former two, and sums as chains (tests/wide_sessions.py), and random
  sessions of steps that are told (tests/telling.py);
- points that are asked for of random small networks, against all that there are (tests/solving.py),
  and such replies spoiled on purpose, which these networks have to find out
  (tests/spoiled_solving.py);
- such questions between random changes of the network (tests/changing.py), and a program that
  heeds no change of a kind, which these sessions have to find out (tests/spoiled_changing.py);
- conflicts and repairs of random small networks, against every set of premises (tests/blaming.py),
  and such replies spoiled on purpose (tests/spoiled_blaming.py);
- constraints as one writes them on random cells, of which each row that is told, and that is not,
  is held to plain evaluation (tests/requiring.py), and such constraints spoiled on purpose
  (tests/spoiled_requiring.py);
- random sessions, each answer of which is compared with a plain and slow evaluation
  (tests/plain.py), such with choices, of which every list is tried (tests/choices.py), and such
  under small limits, of which every step is taken anew (tests/steps.py);
- puzzles as sessions of choices, at once and in slices of a few steps (tests/searches.py, which by
  itself measures what they take);
- what tests/peers.py measures, which by itself runs searches beside other programs: that it tells a
  wrong answer;
- cores among many premises (tests/cores.py, which by itself measures what they take), and that no
  premise of a `why` can be left out where one cell is told of (tests/reasons.py);
- worked sessions in which each request for memory, each read and each write is refused in turn, or
  the input is cut after each byte (tests/refusals.py);
- worked sessions, each limit and deep definitions with a stack of 64 kB (tests/stacks.py);
- what must be believed to read the headline, held against the documents (tests/believed.py);
- the program spoiled on purpose, which random sessions have to find out and tell by a small one
  (tests/spoiled.py);
- ./propbench where nothing is proved yet, with a stand-in for what builds (tests/first_start.py);
- the Debian package of the program, installed in a root of its own (tests/package.py);
- what the gate does around the proofs (tests/gate.py);
- that all say the same version, and what tools/release makes of the gate's log (tests/versions.py);
- the scripts of the repository: what runs them, their types and their layout (tests/scripts.py).

What is worked, written in a document or random is run in each order of calls. -k runs those whose
name has the word, "test_sessions.py::test_session[NAME]" in place of tests the one of this name,
and --lf those that failed the last time; --collect-only writes the names, and runs nothing. N are
run at a time, as many as there are processors where --jobs is left out. Of the random sessions that
are answered wrongly the first few are told as the smallest that still are, with what came and what
is wanted.
"""
import contextlib
import glob
import multiprocessing
import os
from concurrent.futures import Future, ProcessPoolExecutor
from typing import Any, Iterator, Optional, Protocol

import believed
import blaming
import changing
import choices
import cores
import documents
import first_start
import gate
import handbook
import lines
import made
import many_rules
import package
import pages
import pause_rules
import peers
import pipe
import plain
import prelude
import pytest
import reasons
import refusals
import requiring
import row_rules
import rules
import scripts
import searches
import solving
import spoiled
import spoiled_blaming
import spoiled_changing
import spoiled_requiring
import spoiled_solving
import stacks
import steps
import telling
import versions
import wide_puzzles
import wide_rules
import wide_sessions
from case import NO_END, Case, in_each_order
from drawn import Drawn
from transcripts import Transcript, transcripts

TOP = os.path.dirname(os.path.dirname(os.path.realpath(__file__)))

# How many wrong random sessions are told by smaller ones.
SMALLER = 5


class Runnable(Protocol):
    """Something that says what is wrong with a program, or None."""

    @property
    def name(self) -> str:
        """What it is called; nothing else is called so."""

    def wrong(self, program: str) -> Optional[str]:
        """What is wrong with the program of this path, or None."""


Found = dict[str, "Future[Optional[str]]"]


def transcribed() -> Iterator[Transcript]:
    for path in sorted(glob.glob(f"{TOP}/tests/sessions/*.session")):
        yield from transcripts(path)


def examples() -> Iterator[Case]:
    for path in sorted(glob.glob(f"{TOP}/examples/**/*.prop", recursive=True)):
        with open(path, "rb") as sent, open(path.removesuffix(".prop") + ".out", "rb") as wanted:
            yield Case(f"examples: {os.path.basename(path)}", sent.read(), wanted.read())


def worked() -> Iterator[Case]:
    yield from (each.case() for each in transcribed())
    yield from examples()
    yield from documents.cases()
    yield from prelude.cases()


def cases() -> Iterator[Runnable]:
    """What is run, the long ones first. A large or random session is made once it is run."""
    for module in (scripts, gate, versions, package, handbook, first_start, spoiled):
        yield from module.cases()
    for module in (lines, pages, believed):
        yield from module.cases()
    yield from stacks.cases(worked())
    yield from refusals.cases(list(transcribed()))
    for module in (cores, reasons, peers):
        yield from module.cases()
    for module in (searches, steps, choices, plain):
        yield from in_each_order(module.cases())
    for module in (rules, pipe, made):
        yield from module.cases()
    yield from wide_rules.built()
    yield from wide_puzzles.built()
    yield from many_rules.built()
    yield from pause_rules.built()
    yield from row_rules.built()
    yield from wide_sessions.built()
    yield from solving.built()
    yield from spoiled_solving.built()
    yield from changing.built()
    yield from spoiled_changing.built()
    yield from blaming.built()
    yield from spoiled_blaming.built()
    yield from requiring.built()
    yield from spoiled_requiring.built()
    yield from documents.built()
    yield from telling.built()
    yield from in_each_order(worked())


CASES = list(cases())

# Those that are chosen. Each process that runs some has them all from its beginning.
CHOSEN: list[Runnable] = []


def wrong(at: int, program: str) -> Optional[str]:
    """What is wrong with one of those that are chosen, or None."""
    return CHOSEN[at].wrong(program)


def prepare(program: str) -> None:
    """Makes what several cases share, in the process that removes it at its end. Where that fails,
    the cases tell why."""
    if any(isinstance(it, refusals.Refusals) for it in CHOSEN):
        with contextlib.suppress(SystemExit):
            refusals.library()
    if any(it.name.startswith(package.PREFIX) for it in CHOSEN):
        package.prepare(program)


@pytest.fixture(scope="session")
def program(request: pytest.FixtureRequest) -> str:
    """The path of the program."""
    path: str = request.config.getoption("--program")
    return os.path.abspath(path)


@pytest.fixture(scope="session")
def found(request: pytest.FixtureRequest, program: str) -> Iterator[Found]:
    """What is wrong with each case that is chosen, as soon as it is known: they are run by
    processes of their own, and told in the order in which they are begun."""
    for test in request.session.items:
        if isinstance(test, pytest.Function) and test.function is test_session:
            case: Any = test.callspec.params["case"]
            CHOSEN.append(case)
    prepare(program)
    jobs = request.config.getoption("--jobs")
    pool = ProcessPoolExecutor(jobs, multiprocessing.get_context("fork"))
    yield {it.name: pool.submit(wrong, at, program) for at, it in enumerate(CHOSEN)}
    pool.shutdown(cancel_futures=True)


@pytest.fixture(scope="session")
def turns() -> Iterator[int]:
    """One for each random session that is told by a smaller one."""
    return iter(range(SMALLER))


@pytest.mark.parametrize("case", [pytest.param(it, id=it.name) for it in CASES])
def test_session(case: Runnable, found: Found, program: str, turns: Iterator[int]) -> None:
    told = found[case.name].result()
    if told and told != NO_END and isinstance(case, Drawn) and next(turns, None) is not None:
        told = case.smallest(program) or told
    if told:
        pytest.fail(told, pytrace=False)
