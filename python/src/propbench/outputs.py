"""What is written for other programs: files whose endings say what they are, and texts that no
spreadsheet takes for formulas."""

import os
from collections.abc import Sequence

from propbench.files import write_file
from propbench.given import path_given
from propbench.showing import printable

# A cell that begins so is a formula to a spreadsheet.
_FORMULA = ("=", "+", "-", "@", "\t", "\r")


def write_as(text: str, path: str | os.PathLike[str] | None, endings: Sequence[str]) -> str:
    """The text, written to a file where one is named, whole or not at all. Raises OSError, and
    ValueError for a name that ends as if it were something else."""
    if path is not None:
        check_ending(path, endings)
        write_file(path, text)
    return text


def check_ending(path: str | os.PathLike[str], endings: Sequence[str]) -> None:
    """Raises ValueError for the name of a file that ends as if it were something else."""
    ending = os.path.splitext(path_given(path))[1]
    if ending and ending.lower() not in endings:
        raise ValueError(f"this is written as {endings[0]}, and not as {printable(ending)}")


def no_formula(text: str) -> str:
    """The text as it can be seen; one that a spreadsheet would take for a formula has an apostrophe
    in front."""
    shown = printable(text)
    return f"'{shown}" if shown.startswith(_FORMULA) else shown
