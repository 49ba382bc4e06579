"""In a notebook: cells of the language, and a bar for what takes long.

    %load_ext propbench.notebook

    %%propbench
    cell x span
    tell ana x 3..5
    why x

A cell's lines are carried out in a session that is kept for the next cell, as the variable
`session`, or as the one that is named behind `%%propbench`. Behind `--new` it begins anew, so that
the cell can be changed and run again. What takes long shows a bar. The notebook's stop button ends
it there, and the session goes on.

    from propbench.notebook import film, picture
    picture(session)

draws what such a session has stated, and `film(session)` the steps of its run. Over propwide
`how(session, "x")` tells what makes up a value.

What was stated is kept in a journal: where the kernel is killed, `resume()` goes on with it.
"""

import atexit
from html import escape
from typing import Any

from IPython.display import display

from propbench.clock import on_terminal, show_by
from propbench.finding import find_for
from propbench.grammar import ASKING
from propbench.journal import Journal, left
from propbench.notebook.bar import ProgressBar
from propbench.overview import UNPROVED
from propbench.pictures import Film, Picture, film_of, picture_of
from propbench.refusals import Refused
from propbench.replies import Done, Reply, Silent
from propbench.session import Session
from propbench.showing import printable, shown
from propbench.tables import table
from propbench.watching import Claim
from propbench.watching.of_session import SessionWatched

_NEW = "--new"
# By this name a session keeps its journal.
_JOURNAL = "journal"
_OFFERED = "`from propbench.notebook import resume; session = resume()` goes on with it."


class Replies:
    """What came of the lines of a cell: each question with its reply, and the refusal that ended
    them, if one did. `replies` are those of all lines."""

    def __init__(self, proved: bool) -> None:
        self.replies: list[Reply] = []
        self.rows: list[tuple[str, str]] = []
        self.done = 0
        self.wrong = ""
        self._notes = [] if proved else [UNPROVED]

    def note(self, text: str) -> None:
        """Has a note shown below, where there is one."""
        if text:
            self._notes.append(text)

    def take(self, line: str, reply: Reply) -> None:
        """Takes in the reply to a line."""
        self.replies.append(reply)
        if isinstance(reply, Done):
            self.done += 1
        elif not isinstance(reply, Silent):
            self.rows.append((line.strip(), str(reply)))

    def __str__(self) -> str:
        rows = [
            (line if place == 0 else "", part)
            for line, reply in self.rows
            for place, part in enumerate(reply.split("\n"))
        ]
        parts = [table(("asked", "answered"), rows)] if rows else []
        return "\n".join([*parts, *self._below()])

    def __repr__(self) -> str:
        return str(self)

    def _repr_html_(self) -> str:
        rows = "".join(
            "<tr>" + "".join(f"<td>{_lines(text)}</td>" for text in row) + "</tr>"
            for row in self.rows
        )
        head = "<tr><th>asked</th><th>answered</th></tr>"
        shown = f"<table>{head}{rows}</table>" if rows else ""
        wrong = f'<pre style="color:#b3261e">{escape(self.wrong)}</pre>' if self.wrong else ""
        notes = "".join(f"<p>{escape(note)}</p>" for note in (self._count(), *self._notes) if note)
        return shown + wrong + notes

    def _count(self) -> str:
        return f"{self.done} line{'' if self.done == 1 else 's'} carried out." if self.done else ""

    def _below(self) -> list[str]:
        return [each for each in (self.wrong, self._count(), *self._notes) if each]


def _lines(text: str) -> str:
    return "<br>".join(escape(printable(line)) for line in text.split("\n"))


def _named(line: str) -> tuple[bool, str]:
    """What stands behind `%%propbench`: whether the session is to begin anew, and its name."""
    words = line.split()
    is_new = words[:1] == [_NEW]
    name = " ".join(words[1:] if is_new else words) or "session"
    if not name.isidentifier():
        raise ValueError(
            f"behind %%propbench stands the name of a variable, before it maybe {_NEW}, not"
            f" {name!r}"
        )
    return is_new, name


def carried_out(session: Session, text: str) -> Replies:
    """What comes of the lines of a text, up to the first that is refused. A stop shows what came by
    then, and raises KeyboardInterrupt."""
    found = Replies(session.proved)
    bar = ProgressBar()
    try:
        for number, line in enumerate(text.removesuffix("\n").split("\n"), 1):
            try:
                found.take(line, session.send(line, progress=bar.steps))
            except Refused as refused:
                refused.line_number = number
                found.wrong = refused.told(f"line {number}")
                break
    except KeyboardInterrupt:
        found.wrong = "Stopped. The session goes on: the next question goes on from there."
        display(found)
        raise
    finally:
        bar.end()
        found.note(_kept(session))
    return found


def _kept(session: Session) -> str:
    """Has a session's journal hold what it has stated; gives what is to be told of that."""
    journal = session.kept.get(_JOURNAL)
    if not isinstance(journal, Journal):
        journal = session.kept[_JOURNAL] = Journal("notebook")
        atexit.register(journal.end)
    return journal.keep([line for line in session.lines if line.split()[0] not in ASKING])


def _end(session: Session) -> None:
    """Ends a session, and its journal."""
    journal = session.kept.get(_JOURNAL)
    if isinstance(journal, Journal):
        journal.end()
    session.close()


def resume() -> Session:
    """A session that goes on with what a notebook's session had stated when its kernel was killed,
    the last one. Raises ValueError where there is none, and the first refusal of its lines."""
    cut_off = left("notebook")
    if not cut_off:
        raise ValueError("no session of a notebook was cut off")
    session = Session(find_for(cut_off[0].lines).path)
    session.send_all(cut_off[0].lines)
    _kept(session)
    cut_off[0].forget()
    return session


def picture(session: Session, cell: str | None = None) -> Picture:
    """A picture of a session, or of what bears on one of its cells. Raises ValueError where there
    is no such cell, or nothing follows for it."""
    return picture_of(SessionWatched(session), cell)


def film(session: Session, steps: int = 12) -> Film:
    """The first steps that change something, of a session's run from nothing, as a strip of
    pictures."""
    return film_of(SessionWatched(session), steps)


def how(session: Session, cell: str) -> Claim:
    """What makes up what is known of a cell of a session. Raises UnknownCommand where the program
    doesn't tell, and NoSuchCell."""
    return SessionWatched(session).how(cell)


# (the shell is IPython's, which tells no types)
def load_ipython_extension(shell: Any) -> None:
    """Has a notebook know `%%propbench`, and shows a bar for questions that take long."""

    def propbench(line: str, cell: str) -> Replies:
        """Carries out lines of the language, in the session that is named, `session` otherwise;
        behind `--new` in one that begins anew."""
        is_new, name = _named(line)
        session = shell.user_ns.get(name)
        if is_new and isinstance(session, Session):
            _end(session)
        if is_new or not isinstance(session, Session):
            session = shell.user_ns[name] = Session()
        return carried_out(session, cell)

    shell.register_magic_function(propbench, "cell", "propbench")
    show_by(ProgressBar().tell)
    for each in left("notebook")[:1]:
        print(f"{shown(str(each))} {_OFFERED}")


def unload_ipython_extension(shell: Any) -> None:
    """Takes both back."""
    shell.magics_manager.magics["cell"].pop("propbench", None)
    show_by(on_terminal)


__all__ = [
    "Replies",
    "carried_out",
    "film",
    "how",
    "load_ipython_extension",
    "picture",
    "resume",
    "unload_ipython_extension",
]
