"""What README.md, docs/, examples/README.md and python/REALS.md are held to as texts: length,
lines, links, names.

- README.md and docs/ have MOST bytes in all, and a paragraph fewer than WORDS words. An item of a
  list is a paragraph of its own; rows of tables and indented blocks are none.
- A line has COLUMNS columns at the most. Rows of tables may be longer, since they can't be broken;
  so may indented lines that stand so in a source or are commands of a session.
- A table has a head and rows.
- Links lead to a file that is there, and to a heading of it; README leads to each document.
- A name that is followed by a crate and a file in brackets is a definition there; one that is
  followed by a crate alone is a function of it.
- docs/ARCHITECTURE.md has a row for each crate.
- None cites the papers, demands or issues that the repository grew from.
"""
import glob
import os
import re
from dataclasses import dataclass
from typing import Callable, Iterator, Optional

from documents import is_command

TOP = os.path.dirname(os.path.dirname(os.path.realpath(__file__)))
MOST, WORDS, COLUMNS = 170_000, 90, 100
FOREIGN = re.compile(
    r"\b(?:issue|demand|row|paper)s? [A-Z]?\d|\bth(?:e|is) (?:paper|issue)|#\d", re.I
)
# Texts outside of docs/ that are held to the same, but for their bytes.
BESIDE = ["examples/README.md", "python/REALS.md"]
# What is said of names: `NAME` (CRATE, FILE) is a definition, of prop_workbench in `NAME` (FILE);
# `NAME` (CRATE) is a function.
DEFINED = re.compile(r"`(\w+)`\s+\((?:(prop\w+),\s+)?([A-Z]\w*)\)")
CALLED = re.compile(r"`(\w+)`\s+\((prop\w+)\)")
ITEM = re.compile(r"(?:[-*] |\d+\. |> )")


def read(path: str) -> str:
    with open(f"{TOP}/{path}", encoding="utf-8") as it:
        return it.read()


def pages() -> dict[str, str]:
    """The documents by path."""
    paths = ["README.md", *glob.glob("docs/*.md", root_dir=TOP), *BESIDE]
    return {path: read(path) for path in sorted(paths)}


def is_set_apart(line: str) -> bool:
    """Whether the line is a row of a table, or one of an indented block."""
    return line.startswith(("|", "    "))


def paragraphs(text: str) -> Iterator[str]:
    """The paragraphs, each as one line; an item of a list is one."""
    lines: list[str] = []
    for line in [*text.split("\n"), ""]:
        apart = not line.strip() or is_set_apart(line) or line.startswith("#")
        if (apart or ITEM.match(line)) and lines:
            yield " ".join(lines)
            lines = []
        if not apart:
            lines.append(line.strip())


def too_large() -> Optional[str]:
    sizes = {path: len(text.encode()) for path, text in pages().items() if path not in BESIDE}
    total = sum(sizes.values())
    return None if total <= MOST else f"{total} bytes are more than {MOST}: {sizes}"


def long_paragraph() -> Optional[str]:
    for path, text in pages().items():
        for each in paragraphs(text):
            if len(each.split()) >= WORDS:
                return f"{path}: {len(each.split())} words: {each[:80]}"
    return None


def broken_table() -> Optional[str]:
    """Rows that have no head."""
    for path, text in pages().items():
        for block in re.findall(r"(?:^\|.*\n)+", text, flags=re.M):
            if not re.match(r"\|.*\n\|(?:---\|)+\n\|", block):
                return f"{path}: {block[:80]}"
    return None


def sources() -> str:
    """All sources, one behind the other."""
    found = glob.glob("crates/*/*/**/*", root_dir=TOP, recursive=True)
    paths = [it for it in found if it.endswith((".rt", ".antt", ".edit")) and "/out/" not in it]
    return "\n".join(map(read, paths))


def long_line() -> Optional[str]:
    for path, text in pages().items():
        for number, line in enumerate(text.split("\n"), 1):
            if len(line) <= COLUMNS or line.startswith("|"):
                continue
            if line.startswith("    ") and (is_command(line.strip()) or line.strip() in sources()):
                continue
            return f"{path}:{number}: {len(line)} columns"
    return None


def anchors(path: str) -> set[str]:
    """What a link may name of a document: its headings, in small letters, joined by hyphens."""
    heads = re.findall(r"^#+ (.*)$", read(path), flags=re.M)
    return {re.sub(r"[^\w -]", "", head.lower()).replace(" ", "-") for head in heads}


def links(path: str, text: str) -> Iterator[tuple[str, str]]:
    """The links of a document within the repository: a path and a heading, "" where none is."""
    for target in re.findall(r"\]\(([^)\s]+)\)", text):
        if not re.match(r"\w+:", target):
            file, _, head = target.partition("#")
            place = os.path.normpath(f"{os.path.dirname(path)}/{file}".lstrip("/"))
            yield (place if file else path), head


def dead_link() -> Optional[str]:
    for path, text in pages().items():
        for file, head in links(path, text):
            if not os.path.exists(f"{TOP}/{file}"):
                return f"{path} links to {file}"
            if head and head not in anchors(file):
                return f"{path} links to {file}#{head}"
    return None


def unread() -> Optional[str]:
    """A document that no link leads to, from README on."""
    texts, seen, waiting = pages(), set(), ["README.md"]
    while waiting:
        path = waiting.pop()
        if path not in seen:
            seen.add(path)
            waiting += [file for file, _ in links(path, texts[path]) if file in texts]
    left = sorted(texts.keys() - seen)
    return f"no link leads to {left}" if left else None


def unlisted_crate() -> Optional[str]:
    named = re.findall(r"^(\w+)(?: staticlib)?:", read("crates.txt"), flags=re.M)
    rows = " ".join(re.findall(r"^\| (prop.*?) \|", read("docs/ARCHITECTURE.md"), flags=re.M))
    left = [crate for crate in named if not re.search(rf"\b{crate}\b", rows)]
    gone = [crate for crate in re.findall(r"\w+", rows) if crate not in named]
    return f"docs/ARCHITECTURE.md lacks {left} and has {gone}" if left or gone else None


def defines(line: str, name: str) -> bool:
    """Whether a line of specs/ begins the definition of the name."""
    return bool(re.match(rf"(?:\w+ )*{name}(?: |$)", line)) and not line.startswith(("use", "--"))


def unknown_name() -> Optional[str]:
    for path, text in pages().items():
        for name, crate, file in DEFINED.findall(text):
            there = f"crates/{crate or 'prop_workbench'}/specs/{file}.antt"
            if not os.path.isfile(f"{TOP}/{there}"):
                return f"{path} names {there}, which isn't there"
            if not any(defines(line, name) for line in read(there).split("\n")):
                return f"{path} names {name} of {there}, which isn't there"
        for name, crate in CALLED.findall(text):
            found = glob.glob(f"crates/{crate}/src/**/*.rt", root_dir=TOP, recursive=True)
            if not re.search(rf"\bfn {name}\b", "\n".join(map(read, found))):
                return f"{path} names the function {name} of {crate}, which isn't there"
    return None


def foreign() -> Optional[str]:
    for path, text in pages().items():
        found = FOREIGN.search(re.sub(r"\]\([^)]*\)", "]", text))
        if found:
            return f"{path} speaks of {found[0]!r}"
    return None


@dataclass
class OfPages:
    """Something that holds of the documents, whatever the program is."""

    title: str
    lacks: Callable[[], Optional[str]]

    @property
    def name(self) -> str:
        return f"pages: {self.title}"

    def wrong(self, _program: str) -> Optional[str]:
        """What is wrong with them, or None."""
        return self.lacks()


def cases() -> Iterator[OfPages]:
    yield OfPages("how long they are together", too_large)
    yield OfPages("how long a paragraph is", long_paragraph)
    yield OfPages("how long a line is", long_line)
    yield OfPages("tables have heads", broken_table)
    yield OfPages("links lead somewhere", dead_link)
    yield OfPages("README leads to each", unread)
    yield OfPages("names are there", unknown_name)
    yield OfPages("each crate has its row", unlisted_crate)
    yield OfPages("they stand alone", foreign)
