"""What must be believed, held against docs/TRUST.md, which tells of it.

`tools/believed` finds what the headline's clauses reach: definitions, what sources declare, and
functions that call the standard devices. docs/TRUST.md has to tell what to read first, and how many
lines they have, those of the headline no more than MOST, how many with the clause on the work
behind it, and how many in propwide, no more than MOST_WIDE: `tools/believed --write` puts them
there. Over the definitions stands what they mean: no more than one in UNSAID lacks a comment.
docs/HOSTING.md and docs/PRIMER.md have to show code that there is.
"""
import importlib.machinery
import importlib.util
import os
import re
from functools import cache
from typing import Any, Callable, Iterator, Optional

from documents import code_shown

TOP = os.path.dirname(os.path.dirname(os.path.realpath(__file__)))
# Some 200 of these are declarations and functions, the rest definitions.
MOST, MOST_WIDE = 1_599, 5_037
UNSAID = 8


def script(path: str) -> Any:
    """A script of the repository as a module."""
    loader = importlib.machinery.SourceFileLoader(os.path.basename(path), f"{TOP}/{path}")
    spec = importlib.util.spec_from_loader(loader.name, loader)
    assert spec
    module = importlib.util.module_from_spec(spec)
    loader.exec_module(module)
    return module


def text_of(document: str) -> str:
    with open(f"{TOP}/{document}", encoding="utf-8") as it:
        return it.read()


def listed(text: str) -> list[tuple[str, str]]:
    """The rows of the table of what to read first, by file and name."""
    rows = re.findall(r"^\| `(\w+)` \| (prop\w+/specs/\w+\.antt) \|", text, flags=re.M)
    return [(f"crates/{path}", name) for name, path in rows]


class Held:
    """A case that needs no program: what is wrong with a document, or None."""

    def __init__(self, name: str, wrong: Callable[[], Optional[str]]) -> None:
        self.name, self.of = f"believed: {name}", wrong

    def wrong(self, _program: str) -> Optional[str]:
        return self.of()


@cache
def tool() -> Any:
    return script("tools/believed")


@cache
def held() -> Any:
    return tool().Believed()


@cache
def worked() -> Any:
    return tool().Believed(work=True)


@cache
def wide() -> Any:
    return tool().Believed([tool().WIDE])


def figure() -> Optional[str]:
    trust = text_of("docs/TRUST.md")
    for believed, most in ((held(), MOST), (wide(), MOST_WIDE)):
        lines = believed.lines(believed.found)
        if lines > most:
            return f"{lines} lines are more than {most}"
        if f"{most:,}" not in trust:
            return f"docs/TRUST.md does not tell the bound, {most:,} lines"
    told, owed = tool().FIGURE.findall(trust), [it.total() for it in (held(), worked(), wide())]
    return (
        None if told == owed else f"docs/TRUST.md tells {told} for {owed}: tools/believed --write"
    )


def first() -> Optional[str]:
    if listed(text_of("docs/TRUST.md")) != tool().FIRST:
        return "docs/TRUST.md and tools/believed differ in what to read first"
    gone = [name for path, name in tool().FIRST if (path, name) not in held().found]
    return f"the headline does not reach {'; '.join(gone)}" if gone else None


def unsaid() -> Optional[str]:
    comment = worked().texts.comment
    lacking = sorted(f"{path}: {name}" for path, name in worked().found if not comment[path, name])
    few = len(lacking) * UNSAID <= len(worked().found)
    return None if few else f"without a comment stand {'; '.join(lacking)}"


def cases() -> Iterator[Held]:
    yield Held("the figure that the documents tell", figure)
    yield Held("what to read first", first)
    yield Held("what definitions mean stands over them", unsaid)
    yield Held("the code that documents show stands in its crate", code_shown)
