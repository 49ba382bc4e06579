"""Names: any text that a user gives, and the name that stands for it on the program's lines."""

import re
from collections.abc import Callable, Iterable

from propbench.words import MOST_BYTES, is_name

# Names with this in front are the workbench's own, for cells that a user never sees, and those of
# questions, which tell and take back.
INNER = "_"
# How long a name on a line may be, in bytes: with room for what else stands there.
_LONGEST = MOST_BYTES // 64


class LineNames:
    """The names of one sort, as those of cells are: texts of a user, and names on lines.

    A text that is a name of the language stands for itself; any other is mapped to one.
    """

    def __init__(self, is_taken_as_name: Callable[[str], bool]) -> None:
        """`is_taken_as_name` asks the program of a name with letters beyond ASCII."""
        self._is_taken_as_name = is_taken_as_name
        self._lines: dict[str, str] = {}
        self._texts: dict[str, str] = {}

    def line(self, text: str) -> str:
        """The name on a line for a text, the same each time."""
        name = self._lines.get(text)
        if name is None:
            name = self._fresh(text)
            self._lines[text], self._texts[name] = name, text
        return name

    def text(self, line: str) -> str:
        """What a user calls what has this name on a line."""
        return self._texts[line]

    def texts(self, lines: Iterable[str]) -> tuple[str, ...]:
        """What a user calls several of them."""
        return tuple(map(self._texts.__getitem__, lines))

    def has(self, line: str) -> bool:
        """Whether something has this name on a line."""
        return line in self._texts

    def known(self, text: str) -> str | None:
        """The name on a line, where the text has one already."""
        return self._lines.get(text)

    def _fresh(self, text: str) -> str:
        if self._is_plain(text) and text not in self._texts:
            return text
        stem = re.sub(r"[^A-Za-z0-9]+", "_", text).strip("_")[:24] or "n"
        stem = stem if stem[0].isalpha() else f"n{stem}"
        name, count = f"{stem}_", 1
        while name in self._texts or not is_name(name):
            count += 1
            name = f"{stem}_{count}"
        return name

    def _is_plain(self, text: str) -> bool:
        """Whether the text itself can stand on a line."""
        if not is_name(text) or text.startswith(INNER) or len(text.encode()) > _LONGEST:
            return False
        return text.isascii() or self._is_taken_as_name(text)
