"""What the documents show: sessions, which are run, and code, which has to be there.

A session is a block of lines that are indented by four spaces and begin with a command. The replies
to a line stand under it; where none stands there, it is answered `ok`. The blocks of one document
are one session. The examples in LANGUAGE's tables are no sessions: they stand among the worked
ones.
"""
import glob
import os
import re
from typing import Iterable, Iterator, Optional

from case import Case, Check, as_bytes
from wide_rules import PROGRAM, over_propwide

TOP = os.path.dirname(os.path.dirname(os.path.realpath(__file__)))
# Documents whose indented blocks are code, with the crate in which it stands.
CODE = {"docs/HOSTING.md": "prop_host_tests", "docs/PRIMER.md": "prop_sets"}
# Documents whose indented blocks are Python and what it prints, which python/tests runs.
PYTHON = {
    f"docs/{name}.md"
    for name in ("WORKBENCH", "QUESTIONS", "PLANNING", "MEASURING", "FUNCTIONS", "SEEING")
}
COMMANDS = """
domain relation cell attach define fix tell choose kick bring forget limit ask why core settle
worldview nogoods
""".split()
# What propwide has more.
REQUIRED = ["require", "let"]
TOLD = ["step", "how", "list"]
# Questions that have a word behind them which is no number, while a reply to them has one.
ENDS = ["how", "least", "greatest"]
# Questions to which a reply begins as they do.
BLAME = ["conflicts", "repairs"]
# Documents whose sessions are run over propwide, where it is built.
WIDE = {"docs/WIDE.md", "docs/FITTING.md"}


def is_command(line: str) -> bool:
    """Whether it is no reply: those to `nogoods`, `step`, `how`, `list`, `least` and `plans` begin
    with the word too, and a number."""
    word, *rest = line.split(" ")
    if word in ENDS:
        return not "".join(rest).lstrip("-").isdigit()
    if word in ("solve", "plans"):
        return word == "solve" or len(rest) > 1
    return word in (*COMMANDS, *REQUIRED, *TOLD, *BLAME) and not (
        word in ("nogoods", *TOLD) and rest
    )


def told_apart(block: list[str]) -> Iterator[tuple[str, bool]]:
    """Each line of a block, and whether it is a command: none is of those that a reply counts."""
    left, is_asked = 0, False
    for line in block:
        is_sent = left == 0 and not is_asked and is_command(line)
        yield line, is_sent
        is_asked = is_sent and line.split(" ")[0] in BLAME
        words = "|".join(["nogoods", "step", "how", "list", "plans?", *BLAME])
        counted = None if is_sent else re.fullmatch(rf"({words}) (\d+)", line)
        # (behind these stands what is known of others)
        more = 1 if counted and counted[1] in ("plans", *BLAME) else 0
        left = int(counted[2]) + more if counted and not left else max(left - 1, 0)


def blocks(text: str) -> Iterator[list[str]]:
    """The blocks that are sessions: those that begin with a command."""
    for block in re.findall(r"(?:^    .*\n)+", text, flags=re.M):
        lines = [line[4:] for line in block.splitlines()]
        if is_command(lines[0]):
            yield lines


def session(text: str) -> tuple[list[str], list[str]]:
    """The lines of the blocks, and what they are answered."""
    sent: list[str] = []
    wanted: list[str] = []
    for block in blocks(text):
        lines = list(told_apart(block))
        for (line, is_sent), (_, is_next_sent) in zip(lines, [*lines[1:], ("", True)]):
            (sent if is_sent else wanted).append(line)
            if is_sent and is_next_sent:
                wanted.append("ok")
    return sent, wanted


def stripped(lines: Iterable[str]) -> list[str]:
    return [line.strip() for line in lines if line.strip()]


def read(path: str) -> str:
    with open(f"{TOP}/{path}", encoding="utf-8") as it:
        return it.read()


def code_shown() -> Optional[str]:
    """What a document shows as code that stands nowhere in its crate, or None."""
    for document, crate in CODE.items():
        found = glob.glob(f"crates/{crate}/**/*", root_dir=TOP, recursive=True)
        paths = [it for it in found if it.endswith((".rt", ".antt", ".edit")) and "/out/" not in it]
        texts = ["\n".join(stripped(read(it).splitlines())) for it in paths]
        shown = re.findall(r"(?:^    .*\n)+", read(document), flags=re.M)
        for block in (stripped(each.splitlines()) for each in shown):
            if not any("\n".join(block) in text for text in texts):
                return f"{document} shows what crates/{crate} does not have: {block[0]}"
    return None


def cases() -> Iterator[Case]:
    yield from over({"README.md", *glob.glob("docs/*.md", root_dir=TOP)} - PYTHON - WIDE)


def built() -> Iterator[Check]:
    """The sessions over propwide, where it is built."""
    if os.path.exists(PROGRAM):
        yield from map(over_propwide, over(WIDE))


def over(documents: set[str]) -> Iterator[Case]:
    """The sessions of these documents."""
    for document in sorted(documents):
        sent, wanted = session(read(document))
        if sent:
            yield Case(f"documents: {document}", as_bytes(*sent), as_bytes(*wanted))
