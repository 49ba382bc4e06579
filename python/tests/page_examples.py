"""The examples of a page of docs/: its blocks of code, and what it says that they print."""

import re

import pytest

from propbench.overview import UNPROVED

OUTPUT = "This prints"


def examples(text: str) -> list[tuple[str, str]]:
    """The blocks of code, each with what it prints; blocks without are joined to the next."""
    found: list[tuple[str, str]] = []
    code = ""
    for before, block in re.findall(r"(.*)\n\n((?:    .*\n|\n(?=    ))+)", text):
        lines = re.sub(r"^    ", "", block, flags=re.M)
        if before == OUTPUT:
            found.append((code, lines))
            code = ""
        else:
            code += lines
    return [*found, (code, "")] if code else found


def without_notes(printed: str) -> str:
    """What was printed, but for what is said of the program."""
    lines = printed.splitlines(keepends=True)
    told = (UNPROVED, "The program has no rule of its own for ")
    return "".join(line for line in lines if not line.startswith(told))


def carried_out(text: str, number: int, capsys: pytest.CaptureFixture[str]) -> None:
    """Carries out the examples of a page, of which there are so many, one after the other: each
    prints what the page says."""
    names: dict[str, object] = {}
    found = examples(text)
    assert len(found) == number
    for code, wanted in found:
        exec(code, names)
        assert without_notes(capsys.readouterr().out) == wanted
