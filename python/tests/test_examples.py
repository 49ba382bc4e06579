"""Each example prints and draws what lies beside it, and stands in the table of examples/README.md.

That what it prints is right is held to plain reckoning by test_examples_planning, .._measuring and
.._puzzles; the replies to sessions are compared by test_pipe.
"""

import re

import pytest
from examples import DRAWN, EXAMPLES, SCRIPTS, ran

MOST_LINES, MOST_BYTES = 60, 40_000
# Seconds of a processor for all.
MOST_SECONDS = 40
# What a picture of Graphviz says: texts, and what is joined to what. Where things are in it depends
# on the fonts that are there.
SAID = re.compile(r"<(text|title)[^>]*>([^<]*)</")


@pytest.mark.parametrize("name", SCRIPTS)
def test_what_it_prints(name: str) -> None:
    assert ran(name).printed == (EXAMPLES / f"{name}.txt").read_text(encoding="utf-8")


@pytest.mark.parametrize("name", [*SCRIPTS, *DRAWN])
def test_what_it_draws(name: str) -> None:
    drawn, kept = ran(name).drawn, (EXAMPLES / f"{name}.svg").read_text(encoding="utf-8")
    assert len(kept.encode()) <= MOST_BYTES
    assert SAID.findall(drawn) == SAID.findall(kept) != []
    assert drawn == kept or 'class="graph"' in kept


@pytest.mark.parametrize("name", SCRIPTS)
def test_how_it_is_written(name: str) -> None:
    first, second, *_ = lines = (EXAMPLES / f"{name}.py").read_text().split("\n")
    assert len(lines) <= MOST_LINES + 1 and first == "#!/usr/bin/python3"
    assert re.fullmatch(r'""".+[.?!:]"""', second)


def test_how_long_they_take() -> None:
    assert sum(ran(name).seconds for name in (*SCRIPTS, *DRAWN)) < MOST_SECONDS


def test_each_is_in_the_table() -> None:
    table = (EXAMPLES / "README.md").read_text(encoding="utf-8")
    linked = set(re.findall(r"\]\(([\w./]+)\)", table))
    for name in (*SCRIPTS, *DRAWN):
        assert linked & {f"{name}.py", f"{name}.prop"}, f"README.md lacks {name}"
    for link in linked:
        assert (EXAMPLES / link).exists(), f"README.md links to {link}"
