"""Texts as a terminal shows them: what can't be seen, or turns what stands beside it, is escaped,
and wide letters are counted.
"""

import re
import unicodedata

# So many letters of what somebody else wrote are shown at once.
MOST_SHOWN = 200


# Letters without a width, as fillers of Hangul are, which Python takes for printable.
_UNSEEN = "\u034f\u115f\u1160\u17b4\u17b5\u180b-\u180f\u3164\uffa0\U000e0100-\U000e01ef"
_HAS_UNSEEN = re.compile(f"[{_UNSEEN}]")


def printable(text: str) -> str:
    """The text with what can't be printed or seen escaped (control characters, marks that turn the
    direction, what has no width), and a space for each tab."""
    if text.isprintable() and not _HAS_UNSEEN.search(text):
        return text
    return "".join(map(_printable, text))


def shown(text: str) -> str:
    """The same of a text of several lines."""
    return "\n".join(map(printable, text.split("\n")))


def cut(text: str, most: int = MOST_SHOWN) -> str:
    """The text made printable, of which at most so many letters are shown and how many more there
    are is told."""
    if len(text) <= most:
        return printable(text)
    return f"{printable(text[:most])}.. ({len(text) - most:,} more letters)"


def _printable(character: str) -> str:
    if character.isprintable() and not _HAS_UNSEEN.match(character):
        return character
    return " " if character == "\t" else ascii(character)[1:-1].replace("\\udc", "\\x")


def said_of(error: Exception) -> str:
    """An error as a user reads it; of a file its name and what is wrong, without the number."""
    if isinstance(error, OSError) and error.strerror:
        name = f"{printable(str(error.filename))}: " if error.filename else ""
        return f"{name}{error.strerror}"
    if isinstance(error, UnicodeDecodeError):
        return f"this is no text in UTF-8, from byte {error.start + 1:,} on: save it as that"
    return shown(str(error))


def quoted(word: str) -> str:
    """The word as a message shows it, in backquotes, and cut where it is long."""
    return f"`{cut(word)}`"


def width(text: str) -> int:
    """How many columns of a terminal the text takes as it is shown."""
    return sum(map(_columns, printable(text)))


def _columns(character: str) -> int:
    if unicodedata.combining(character):
        return 0
    return 2 if unicodedata.east_asian_width(character) in "WF" else 1
