"""What all tests use: the program, and what it answers on a bare pipe.

The program is the one that is found, $PROPBENCH first; tests of the workbench are run over propwide
too, where that is named by $PROPWIDE, built or installed. $PROPBENCH_TESTS is how many times as
many random cases as usual are drawn (1 where it is not set).
"""

import os
import signal
import subprocess
import sys
from collections.abc import Callable, Iterable, Iterator
from contextlib import suppress
from pathlib import Path
from typing import Any

import pytest
from hypothesis import HealthCheck, settings

from propbench.finding import NoProgram, find_program, find_wide
from propbench.words import encoded

REPOSITORY = Path(__file__).resolve().parents[2]
sys.path.append(str(REPOSITORY / "tests"))

OF_A_WORKBENCH = """
test_blamed
test_cases test_certificates test_chains test_flatzinc test_flatzinc_floats test_flatzinc_meaning
test_flatzinc_models test_flatzinc_random test_flatzinc_search test_flatzinc_sets test_goals
test_planning
test_progress test_questions test_questions_page test_schedules test_shown test_solving
test_spoilt test_what_ifs test_workbench test_workbench_files test_workbench_page
test_workbench_random
""".split()
TIMES = int(os.environ.get("PROPBENCH_TESTS", "1"))

settings.register_profile(
    "small",
    max_examples=60 * TIMES,
    deadline=None,
    database=None,
    suppress_health_check=[HealthCheck.too_slow, HealthCheck.data_too_large],
)
settings.load_profile("small")


def hide(monkeypatch: pytest.MonkeyPatch, module: str) -> None:
    """Has a module be missing where it is imported."""
    modules: dict[str, Any] = sys.modules
    monkeypatch.setitem(modules, module, None)


# A network that takes 10^18 steps: each rules out one number.
ENDLESS = [
    "cell x span",
    "cell one span",
    "fix one 1",
    "attach adder x one x",
    "tell start x 0..1000000000000000000",
]

Bare = Callable[[Iterable[str | bytes], list[str]], str]


@pytest.fixture(scope="session", autouse=True)
def interrupts() -> None:
    """Has Ctrl-C interrupt: where the tests are run in the background it may be ignored."""
    signal.signal(signal.SIGINT, signal.default_int_handler)


def programs() -> dict[str, str]:
    """The programs that a workbench is tested over, by name."""
    found = {"propbench": find_program().path}
    with pytest.MonkeyPatch.context() as patch, suppress(NoProgram):
        patch.delenv("PROPBENCH", raising=False)
        wide = find_wide()
        # (where nothing names it, propbench is found in its place if there is no propwide)
        is_wide = "PROPWIDE" in os.environ or Path(wide.path).name == "propwide"
        if is_wide and not wide.builds:
            found["propwide"] = wide.path
    return found


PROGRAMS = programs()


def pytest_generate_tests(metafunc: pytest.Metafunc) -> None:
    """Has each test of a workbench and of its questions run over both programs."""
    if metafunc.module.__name__ in OF_A_WORKBENCH:
        metafunc.parametrize("over", PROGRAMS, indirect=True, scope="session")


@pytest.fixture(scope="session", autouse=True)
def over(request: pytest.FixtureRequest) -> Iterator[None]:
    """The program that a test is run over, which $PROPBENCH names for all that begin one."""
    with pytest.MonkeyPatch.context() as patch:
        patch.setenv("PROPBENCH", PROGRAMS[getattr(request, "param", "propbench")])
        patch.delenv("PROPWIDE", raising=False)
        # (the tests of journals turn them on, in a folder of their own)
        patch.setenv("PROPBENCH_JOURNAL", "off")
        yield


@pytest.fixture(scope="session")
def program(over: None) -> str:
    """The path of the program."""
    return find_program().path


@pytest.fixture(scope="session")
def wide(over: None) -> str:
    """The path of propwide."""
    if "propwide" not in PROGRAMS:
        pytest.skip("no propwide is named by $PROPWIDE, built or installed")
    return PROGRAMS["propwide"]


@pytest.fixture(scope="module")
def browser() -> Iterator[Any]:
    """A browser without a window, which the tests of a file share."""
    from browsing import new_browser

    made = new_browser()
    try:
        yield made
    finally:
        made.quit()


@pytest.fixture(scope="session")
def bare(program: str) -> Bare:
    """What the program writes to lines on a bare pipe, given options."""

    def answered(lines: Iterable[str | bytes], options: list[str]) -> str:
        data = b"".join(
            (line if isinstance(line, bytes) else encoded(line)) + b"\n" for line in lines
        )
        ran = subprocess.run(
            [program, *options], input=data, stdout=subprocess.PIPE, check=True, timeout=100
        )
        return ran.stdout.decode()

    return answered
