"""The handbook that tools/handbook makes of README.md, docs/ and examples/.

What is laid out for Sphinx is looked at whether Sphinx is there or not: that each document stands
in the contents, that each block has a language, and that each link leads to a file and a heading.
Where Sphinx is there, the pages are made, each link in them leads somewhere, and their search knows
them.
"""
import contextlib
import glob
import io
import os
import re
import sys
import tempfile
from typing import Iterator, Optional
from urllib.parse import unquote

from case import Check

TOP = os.path.dirname(os.path.dirname(os.path.realpath(__file__)))
sys.path += [f"{TOP}/tools/{folder}" for folder in ("book", "deb", "start")]

# pylint: disable=wrong-import-position
import making
import tree

BUILD = tree.Build({}, True, "1.0", 0, "", True)
LINK = re.compile(r"\]\(([^)\s#]*)(#[^)\s]*)?\)")


def text_of(path: str) -> str:
    with open(path, encoding="utf-8") as it:
        return it.read()


def left_out() -> Optional[str]:
    """Each document of docs/ stands in the contents once, and nothing that isn't there."""
    named = making.documents()
    there = [f"docs/{name}" for name in os.listdir(f"{TOP}/docs") if name.endswith(".md")]
    wrong = [
        it for it in {*named, *there} if named.count(it) != 1 or not os.path.isfile(f"{TOP}/{it}")
    ]
    return f"the contents are wrong of {sorted(wrong)}" if wrong else None


def heads(text: str) -> set[str]:
    """What links may name of a document, as Sphinx makes it of headings outside of code."""
    text = re.sub(r"^```.*?^```", "", text, flags=re.M | re.S)
    titles = re.findall(r"^#+ (.*)$", text, flags=re.M)
    return {re.sub(r"[^\w -]", "", title.lower()).replace(" ", "-") for title in titles}


def laid_out() -> Optional[str]:
    """Of what is laid out: a link that leads nowhere, or a block that has no language."""
    with tempfile.TemporaryDirectory(prefix="handbook-test-") as room:
        making.lay_out(room)
        for path in glob.glob(f"{room}/**/*.md", recursive=True):
            text, name = text_of(path), os.path.relpath(path, room)
            if re.search(r"^    \S", re.sub(r"^```.*?^```", "", text, flags=re.M | re.S), re.M):
                return f"{name} has a block that is not told the language of"
            for target, anchor in LINK.findall(re.sub(r"`[^`\n]*`", "", text)):
                to = os.path.normpath(os.path.join(os.path.dirname(path), target))
                to = to if target else path
                if not re.match(r"\w+:", target) and not os.path.isfile(to):
                    return f"{name} links to {target}"
                if anchor and anchor[1:] not in heads(text_of(to)):
                    return f"{name} links to {target}{anchor}"
    return None


def ids(text: str) -> set[str]:
    return {*re.findall(r'\bid="([^"]+)"', text)}


def links(page: str, text: str) -> Iterator[tuple[str, str]]:
    """The files beside a page that it leads to, each with what is named of it."""
    for link in re.findall(r'(?:href|src)="([^"]+)"', text):
        file, _, anchor = unquote(link).partition("#")
        if not re.match(r"\w+:", link):
            place = os.path.normpath(os.path.join(os.path.dirname(page), file.partition("?")[0]))
            yield (place if file else page), anchor


def made() -> Optional[str]:
    """Of the pages in the Debian package: a link that leads nowhere, or what the search lacks."""
    if making.lacking():
        return None
    with tempfile.TemporaryDirectory(prefix="handbook-test-") as room:
        tree.laid_out(tree.of_handbook(BUILD), room, 0)
        top = f"{room}/{tree.HTML}"
        texts = {page: text_of(page) for page in glob.glob(f"{top}/**/*.html", recursive=True)}
        for page, text in texts.items():
            for to, anchor in links(page, text):
                if (
                    not os.path.isfile(to)
                    or anchor
                    and to in texts
                    and anchor not in ids(texts[to])
                ):
                    return (
                        f"{os.path.relpath(page, top)} links to {os.path.relpath(to, top)}#{anchor}"
                    )
        for style in glob.glob(f"{top}/**/*.css", recursive=True):
            if asked := re.search(r"url\(\W{0,2}(?:/|https?:)[^)]*", text_of(style)):
                return f"{os.path.relpath(style, top)} asks a server: {asked[0]}"
        index = text_of(f"{top}/searchindex.js")
        names = ["index", *(name.removesuffix(".md") for name in making.documents())]
        unknown = [name for name in names if f'"{name}"' not in index]
        return f"the search does not know {unknown}" if unknown else None


def left_out_of_the_package() -> Optional[str]:
    """Where something is lacking, the package has no handbook, and it is told what is lacking."""
    told, needed = io.StringIO(), making.NEEDED
    making.NEEDED = {"no_such_module": "no-such-package"}
    try:
        with contextlib.redirect_stderr(told):
            files = tree.of_handbook(BUILD)
    finally:
        making.NEEDED = needed
    if files or told.getvalue() != "tools/package: no handbook, for want of no-such-package\n":
        return f"{sorted(files)}, and it says {told.getvalue()!r}"
    return None


def cases() -> Iterator[Check]:
    yield Check("handbook: its contents", lambda _: left_out())
    yield Check("handbook: what is laid out for it", lambda _: laid_out())
    yield Check("handbook: its pages, where Sphinx is there", lambda _: made())
    yield Check(
        "handbook: what is told where Sphinx isn't there", lambda _: left_out_of_the_package()
    )
