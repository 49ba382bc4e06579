#!/usr/bin/python3
"""Runs the notebooks of notebooks/, and keeps what their cells show.

usage: python/tests/lessons.py [FILE ..]

The files, all lessons where none is given, are run over $PROPBENCH and $PROPWIDE, and written with
what they show. What says that a program isn't proved is not kept. See each page before you commit
it.
"""

import json
import re
import sys
from collections.abc import Iterable
from html import unescape
from pathlib import Path
from typing import Any

import nbformat
from nbclient import NotebookClient

LESSONS = Path(__file__).resolve().parents[2] / "notebooks"
UNPROVED = "The program that answers is not known to be proved."
_MOST_SECONDS = 60
# So many seconds its kernel has to start, which takes long on a busy machine.
_START_SECONDS = 900


def paths() -> list[Path]:
    """The lessons, in their order."""
    return sorted(LESSONS.glob("*.ipynb"))


def read(path: Path) -> Any:
    """A notebook as it is kept."""
    return nbformat.read(str(path), as_version=4)


def ran(book: Any, may_fail: bool = False) -> Any:
    """The notebook, run anew from its first cell. Raises CellExecutionError where a cell fails, or
    shows what it says and goes on where that `may_fail`."""
    made = nbformat.from_dict(json.loads(json.dumps(book)))
    client = NotebookClient(
        made,
        timeout=_MOST_SECONDS,
        startup_timeout=_START_SECONDS,
        kernel_name="python3",
        allow_errors=may_fail,
        record_timing=False,
    )
    client.execute(cwd=str(LESSONS))
    for cell in made.cells:
        if cell.cell_type == "code":
            cell.outputs = _joined(_without_note(each) for each in cell.outputs)
    return made


def kept(book: Any) -> str:
    """A notebook as text, with nothing of the machine that it was run on."""
    book = json.loads(json.dumps(book))
    book["metadata"] = {
        "kernelspec": {"display_name": "Python 3", "language": "python", "name": "python3"},
        "language_info": {"name": "python"},
    }
    for cell in book["cells"]:
        cell["source"] = _lines(cell["source"])
        for output in cell.get("outputs", ()):
            if "text" in output:
                output["text"] = _lines(output["text"])
            data = output.get("data", {})
            data.update({kind: _lines(text) for kind, text in data.items()})
    return json.dumps(book, indent=1, sort_keys=True, ensure_ascii=False) + "\n"


def shown(cell: Any) -> list[str]:
    """What a cell shows, as words: of a picture and of a page its texts, since where these stand
    hangs on the fonts of a machine."""
    return [_words(each) for each in cell.get("outputs", ())]


def _words(output: Any) -> str:
    data = output.get("data", {"text/plain": output.get("text", "")})
    drawn = data.get("image/svg+xml") or data.get("text/html") or ""
    texts = re.findall(r">([^<>]+)<", drawn)
    return "\n".join([data["text/plain"], *(unescape(text) for text in texts if text.strip())])


def _joined(outputs: Iterable[Any]) -> list[Any]:
    """The outputs, with what was printed in pieces in one."""
    found: list[Any] = []
    for each in outputs:
        if found and "name" in each and found[-1].get("name") == each.name:
            found[-1].text += each.text
        else:
            found.append(each)
    return found


def _without_note(output: Any) -> Any:
    text = json.dumps(output)
    for note in (rf"\n{UNPROVED}", f"<p>{UNPROVED}</p>"):
        text = text.replace(note, "")
    return nbformat.from_dict(json.loads(text))


def _lines(text: str) -> list[str]:
    return text.splitlines(keepends=True)


def main(words: list[str]) -> int:
    """Runs the files and writes them."""
    for path in map(Path, words) if words else paths():
        path.write_text(kept(ran(read(path))), encoding="utf-8")
        print(path)
    return 0


if __name__ == "__main__":
    sys.exit(main(sys.argv[1:]))
