"""What pytest may be told of tests/ in words of its own."""
import os

import pytest

TOP = os.path.dirname(os.path.dirname(os.path.realpath(__file__)))


def pytest_addoption(parser: pytest.Parser) -> None:
    built = f"{TOP}/crates/propbench/out/propbench"
    jobs = len(os.sched_getaffinity(0))
    parser.addoption("--program", default=built, help="what the sessions are run over")
    parser.addoption("--jobs", type=int, default=jobs, help="how many cases are run at a time")
