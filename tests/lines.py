"""How long the lines of the crates are: in specs/ and all but one in src/ COLUMNS at the most, in
proofs/ all but FEW no longer than WIDE. Longer may be what the formatter keeps on one line: an
attribute, or a text in quotes.
"""
import glob
import os
from functools import partial
from typing import Iterator, Optional

from case import Check

TOP = os.path.dirname(os.path.dirname(os.path.realpath(__file__)))
COLUMNS, WIDE, FEW = 100, 120, 24


def long_lines(folder: str, columns: int) -> Iterator[str]:
    """Where the crates' folders of this name have longer lines that could be broken."""
    for path in sorted(glob.glob(f"{TOP}/crates/*/{folder}/**/*", recursive=True)):
        if not path.endswith((".rt", ".antt")):
            continue
        with open(path, encoding="utf-8") as it:
            for number, line in enumerate(it.read().split("\n"), 1):
                if len(line) > columns and not line.strip().startswith(("#[", '"')):
                    yield f"{os.path.relpath(path, TOP)}:{number}: {len(line)} columns"


def too_long(folder: str, columns: int, few: int, _program: str) -> Optional[str]:
    """The longer lines of these folders, where there are more than a few; else None."""
    found = list(long_lines(folder, columns))
    return "; ".join(found) if len(found) > few else None


def cases() -> Iterator[Check]:
    yield Check("lines: of src", partial(too_long, "src", COLUMNS, 1))
    yield Check("lines: of specs", partial(too_long, "specs", COLUMNS, 0))
    yield Check("lines: of proofs", partial(too_long, "proofs", WIDE, FEW))
