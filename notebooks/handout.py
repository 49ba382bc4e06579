#!/usr/bin/python3
"""Writes the lessons without their answers, for students.

usage: python3 notebooks/handout.py FOLDER

The folder is made where it isn't there. Cells that are marked as answers are left out, and so is
the heading above them.
"""

import json
import sys
from pathlib import Path
from typing import Any


def without_answers(lesson: dict[str, Any]) -> dict[str, Any]:
    """A notebook without its answers."""
    cells = [cell for cell in lesson["cells"] if "answer" not in cell["metadata"].get("tags", ())]
    return {**lesson, "cells": [cell for cell in cells if cell["id"] != "answers"]}


def main(words: list[str]) -> int:
    """Writes all lessons into the folder that is named."""
    if len(words) != 1 or words[0].startswith("-"):
        print("usage: python3 notebooks/handout.py FOLDER", file=sys.stderr)
        return 2
    folder = Path(words[0])
    folder.mkdir(parents=True, exist_ok=True)
    for path in sorted(Path(__file__).resolve().parent.glob("*.ipynb")):
        lesson = json.loads(path.read_text(encoding="utf-8"))
        text = json.dumps(without_answers(lesson), indent=1, ensure_ascii=False)
        (folder / path.name).write_text(f"{text}\n", encoding="utf-8")
        print(folder / path.name)
    return 0


if __name__ == "__main__":
    sys.exit(main(sys.argv[1:]))
