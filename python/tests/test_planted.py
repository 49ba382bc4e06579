"""The bugs that tools/planted plants: each fits one place, and names tests that are there."""

import ast
import sys

import pytest
from conftest import REPOSITORY

sys.path.append(str(REPOSITORY / "python/planted"))

from bugs import BUGS, Bug  # noqa: E402

PACKAGE, TESTS = REPOSITORY / "python/src/propbench", REPOSITORY / "python/tests"


def test_there_are_enough() -> None:
    assert len({bug.name for bug in BUGS}) == len(BUGS) >= 40


@pytest.mark.parametrize("bug", BUGS, ids=[bug.name for bug in BUGS])
def test_each_fits(bug: Bug) -> None:
    text = (PACKAGE / bug.file).read_text(encoding="utf-8")
    assert text.count(bug.old) == 1
    # (what is planted is a program: else any test would find it out)
    assert ast.dump(ast.parse(text)) != ast.dump(ast.parse(text.replace(bug.old, bug.new)))
    assert bug.tests
    for file, test in (each.split("::") for each in bug.tests.split()):
        assert f"def test_{test}(" in (TESTS / f"test_{file}.py").read_text(encoding="utf-8")
