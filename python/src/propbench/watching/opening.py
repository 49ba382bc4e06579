"""A file as views see it: one of the language as a session, one that a workbench saved as that."""

import tempfile
from collections.abc import Iterator, Sequence
from contextlib import contextmanager

from propbench.finding import SAVED
from propbench.running import RunAs, lines_of
from propbench.watching import Watched
from propbench.watching.of_session import SessionWatched
from propbench.watching.of_workbench import WorkbenchWatched
from propbench.words import encoded
from propbench.workbench import Workbench


@contextmanager
def opened(
    path: str, way: RunAs, program: str | None = None, instead: Sequence[str] | None = None
) -> Iterator[Watched]:
    """What a file states, or what these lines state instead. Raises OSError, as a Session does, and
    the refusal of its first line that is refused; for a workbench's file ValueError where its lines
    were changed."""
    lines = lines_of(path) if instead is None else list(instead)
    if lines[:1] == [SAVED]:
        with _loaded(path if instead is None else "-", lines, program) as workbench:
            yield WorkbenchWatched(workbench)
        return
    with way.session(program, lines) as session:
        session.send_all(lines)
        yield SessionWatched(session, lines)


def _loaded(path: str, lines: Sequence[str], program: str | None) -> Workbench:
    """The workbench of a file; what came by standard input is one for a moment."""
    if path != "-":
        return Workbench.load(path, program)
    with tempfile.NamedTemporaryFile() as file:
        file.write(b"".join(encoded(line) + b"\n" for line in lines))
        file.flush()
        return Workbench.load(file.name, program)
