"""What a shell offers behind `propdesk` and the programs: commands, options, their values, files.

The shell runs `propdesk` for that, with its line in the environment: as Debian's argcomplete has
told it to, for a program too.
"""

import argparse
import os
from collections.abc import Callable, Iterable

from propbench.finding import PLAIN, WIDE

# How words for files are called in help; of others (names, dates, numbers) nothing is known.
_FILES = ("BENCH", "DATA", "FILE", "MODEL", "PATH", "PICTURE", "READINGS")


def offer(desk: argparse.ArgumentParser, program: argparse.ArgumentParser) -> None:
    """Tells the shell what may come next on its line, and ends this process; of what the desk
    reads, or a program. Without argcomplete it does nothing."""
    try:
        import argcomplete
    except ImportError:
        return
    name = os.path.basename(os.environ.get("COMP_LINE", "").split(" ", maxsplit=1)[0])
    argcomplete.autocomplete(
        program if name in (PLAIN, WIDE) else desk,
        always_complete_options=False,
        default_completer=_values(argcomplete.FilesCompleter()),
    )


def _values(files: Callable[[str], Iterable[str]]) -> Callable[..., Iterable[str]]:
    """What a word may be that has no list of values."""

    def values(prefix: str, action: argparse.Action, **_: object) -> Iterable[str]:
        return files(prefix) if action.metavar in _FILES else ()

    return values
