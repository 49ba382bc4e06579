"""Help on commands, procedures and refusals, from docs/LANGUAGE.md where it is there."""

import re
import shutil
from collections.abc import Iterator
from pathlib import Path

from propbench.commands import TOLD, USAGES, usages_of
from propbench.finding import repository
from propbench.kit import KIT
from propbench.known import Known
from propbench.refusals import CLASSES
from propbench.tables import table

_INSTALLED = Path("/usr/share/doc/propbench/docs/LANGUAGE.md")

# The section of the document that says more of a command.
_SECTIONS = {"choose": "Choices", "nogoods": "Choices", "core": "Cores", "define": "Definitions"}


def document() -> str:
    """The text of docs/LANGUAGE.md, "" where it isn't there."""
    top = repository()
    for path in [Path(top, "docs/LANGUAGE.md")] if top else [_INSTALLED]:
        if path.is_file():
            return path.read_text(encoding="utf-8")
    return ""


def plain(text: str) -> str:
    """The text without the marks of a document, and without a note on where it says more."""
    text = re.sub(r' \("\w+" below\)', "", text)
    return re.sub(r"\*\*|`|\*(\w+)\*|\[([^]]*)\]\([^)]*\)", r"\1\2", text)


def columns() -> int:
    """How wide help may be: as the terminal is, and 80 letters where none is."""
    return shutil.get_terminal_size().columns


def all_help() -> str:
    """All commands, each with what it does."""
    rows = [(usage.form, plain(usage.meaning)) for usage in USAGES + TOLD]
    return table(("command", "what it does"), rows, most=columns())


def help_on(word: str, known: Known) -> str:
    """What there is to say of a command, a procedure or definition, or the number of a refusal."""
    if usages_of(word):
        return "\n".join(_on_command(word))
    if known.is_procedure(word):
        return "\n".join(_on_procedure(word, known))
    if word.isdigit() and int(word) in CLASSES:
        return plain(str(CLASSES[int(word)].__doc__))
    return f"There is no help on {word!r}. Help is on commands, procedures and refusals."


def _on_command(word: str) -> Iterator[str]:
    replies = {plain(row[0]): plain(row[2]) for row in _rows("Command", "What it does", "Reply")}
    rows = []
    for usage in usages_of(word):
        reply = replies.get(usage.form, "ok")
        answered = "" if reply == "ok" else f"; answered {reply}"
        rows.append((usage.form, plain(usage.meaning) + answered))
    yield table(("written", "what it does"), rows, most=columns())
    paragraphs = _section(_SECTIONS[word]) if word in _SECTIONS else []
    for paragraph in paragraphs[:2]:
        yield ""
        yield paragraph


def _rows(*heads: str) -> list[list[str]]:
    """The rows of the document's table with these heads, none where it isn't there."""
    text = document().partition(f"| {' | '.join(heads)} |\n")[2].partition("\n\n")[0]
    lines = [line for line in text.split("\n") if line.startswith("| ")]
    return [[cell.strip() for cell in line.strip("|").split(" | ")] for line in lines]


def _section(title: str) -> list[str]:
    """The paragraphs of a section of the document."""
    text = document().partition(f"\n## {title}\n")[2].partition("\n## ")[0]
    return [plain(paragraph) for paragraph in text.strip().split("\n\n")]


def _on_procedure(word: str, known: Known) -> Iterator[str]:
    yield f"attach {word} {' '.join(known.cells_of(word))}{_by(word, known)}"
    for row in _rows("Name", "Cells", "Meaning", "Example", "Answer"):
        if plain(row[0]) == word:
            yield f"  {plain(row[2])}; its cells are {row[1]}"
            yield f"  for example {plain(row[3])} gives {plain(row[4])}"
    for row in _rows("Name", "Cells", "Meaning"):
        if plain(row[0]) == word:
            yield f"  {plain(row[2])}; its cells are {row[1]}"
    for row in _rows("Procedure", "Example", "Answer"):
        name, _, given = plain(row[0]).partition(" .. ")
        if name == word:
            case = f"{given}, {plain(row[1])}" if given else plain(row[1])
            yield f"  for example {case} gives {plain(row[2])}"
    yield "  S is a number, T a truth, A any kind, the same at each A"


def _by(word: str, known: Known) -> str:
    given = KIT[word].given if word in KIT else ""
    if word not in KIT and known.definitions[word].takes_given:
        return " [by ..]"
    return {"": "", "scale": " [by K]", "relation": " by R"}[given]
