"""`propdesk shell`: a conversation at a terminal.

`Shell` takes lines and writes what comes of them; how lines are read stands in terminal.py.
"""

import os
import sys
import time
from collections.abc import Callable, Sequence
from functools import partial
from typing import TypeVar

from propbench.files import ChangedSince, OpenedFile
from propbench.grammar import ASKING
from propbench.helping import all_help, columns, help_on
from propbench.journal import Journal, CutJournal, left
from propbench.listing import ToldLines, told_by
from propbench.overview import UNPROVED, overview
from propbench.pictures import NoGraphviz, picture_of
from propbench.program import OutOfTime, ProgramEnded
from propbench.refusals import Refused, UnknownCommand
from propbench.replies import (
    Called,
    Contradiction,
    Done,
    Moved,
    Reply,
    Searched,
    Silent,
    Stand,
    Step,
    Unsettled,
    Value,
)
from propbench.running import lines_of, told_of
from propbench.runs import is_settled
from propbench.session import Session
from propbench.showing import printable, said_of, shown
from propbench.tables import table
from propbench.watching.instances import listing_of
from propbench.watching.of_session import SessionWatched

_Result = TypeVar("_Result")

WELCOME = "propbench: lines of its language, :help for help, :quit or Ctrl-D to end."

ASIDES = {
    ":list": "[cells|premises|choices|definitions|attached]  what the session knows; all of it",
    ":undo": "takes back the last line that changed something",
    ":step": "[N]  takes one step, or N, and shows what changed; over propwide what was called",
    ":how": "X [all]  what makes up what is known of X, as a tree, a long one by its chain; or all"
    " of it; over propwide",
    ":draw": "[X] [FILE]  draws the network, or what bears on the cell X, as SVG or .dot",
    ":limit": "[N]  shows or sets how many steps a run takes at most",
    ":save": "FILE [overwrite]  writes the lines that were carried out; over what another changed"
    " there by the word overwrite alone",
    ":load": "FILE  carries out the lines of a file, to the first that is refused",
    ":resume": "[no]  goes on with what a shell had carried out that was cut off; or forgets it",
    ":help": "[COMMAND]  all commands, or one; a procedure; the number of a refusal",
    ":quit": "ends",
}

# What is typed for an aside by who doesn't know them.
_HELP, _END = "Write :help for help", "Write :quit to end"
_MEANT = {"help": _HELP, "?": _HELP, "quit": _END, "exit": _END}
# The commands that `:undo` takes for nothing that was changed.
_KEPT = ASKING | {"limit"}
# The word by which a tree is told in whole.
_ALL = "all"
# The word by which what somebody else has changed in a file is lost.
_OVERWRITE = "overwrite"
_REFUSED_SAVE = """\
{}
(- is there now, + is what you have)
:save under another name keeps both; `:save {} overwrite` keeps yours alone."""
# After so many seconds it is told how far a run is, and then so often.
_TOLD_AFTER, _TOLD_EVERY = 1.0, 0.5


class Quit(Exception):
    """The shell is to end."""


class Shell:
    """What is said in a session, and what is written in return by `write`; `status` shows a line
    that the next text replaces, "" for none."""

    def __init__(
        self,
        session: Session,
        write: Callable[[str], None],
        status: Callable[[str], None] = lambda text: None,
        journal: Journal | None = None,
    ) -> None:
        self.session = session
        self._journal = journal
        # What was cut off that one may go on with, and the lines that this one began with.
        self._left: list[CutJournal] = []
        self._first: list[str] = []
        # What the journal was given: the lines so far, and those of them that state something.
        self._seen: list[str] = []
        self._stated_lines: list[str] = []
        self._out = write
        self._status = status
        # The files that were loaded or saved, by where they lie.
        self._files: dict[str, OpenedFile] = {}
        # When the run began, and when it was told last how far it is.
        self._begun = self._told = 0.0
        self._asides: dict[str, Callable[[list[str]], None]] = {
            ":list": self._list,
            ":undo": self._undo,
            ":step": self._step,
            ":how": self._how,
            ":draw": self._draw,
            ":limit": self._limit,
            ":save": self._save,
            ":load": self._load,
            ":resume": self._resume,
            ":help": self._help,
            ":quit": self._quit,
        }

    def _write(self, text: str) -> None:
        self._out(shown(text))

    def obey(self, line: str) -> None:
        """Does what a line says, whatever comes of it. Raises Quit where it says so."""
        try:
            self._obey(line)
        except Refused as refused:
            self._write(refused.told())
        except KeyboardInterrupt:
            self._write("Stopped. The next question goes on from there.")
        except (ProgramEnded, OutOfTime) as ended:
            self._write(f"{ended}; it is begun anew with what was carried out.")
            self.session.replay()
        except (NoGraphviz, OSError, ValueError) as error:
            self._write(said_of(error))
        self._keep()

    def offer(self) -> None:
        """Tells of a shell that was cut off, if there is one, and takes note of what this one began
        with."""
        self._first = self.session.lines
        self._left = left("shell")
        if self._left:
            self._write(f"{self._left[0]}\n:resume goes on with it, :resume no forgets it.")

    def _keep(self) -> None:
        """Has the journal hold all that was stated: a line is on the disk before its reply is
        shown."""
        if self._journal is None:
            return
        lines = self.session.lines
        if lines[: len(self._seen)] != self._seen:
            self._seen, self._stated_lines = [], []
        new = lines[len(self._seen) :]
        self._stated_lines += [line for line in new if line.split(None, 1)[0] not in ASKING]
        self._seen = lines
        told = self._journal.keep(self._stated_lines)
        if told:
            self._write(told)

    def _obey(self, line: str) -> None:
        words = line.split()
        if words and words[0].startswith(":"):
            self._aside(words)
            return
        if words and words[0] in _MEANT:
            self._write(f"{words[0]} is no command of the language. {_MEANT[words[0]]}.")
            return
        reply = self._watched(partial(self.session.send, line, progress=self._progress))
        self._keep()
        if not isinstance(reply, Silent):
            self._write(printable_lines(reply))
            self._explain(reply)

    def _watched(self, run: Callable[[], _Result]) -> _Result:
        """What a run gives, of which it is told how far it is where it takes long."""
        self._begun = self._told = time.monotonic()
        try:
            return run()
        finally:
            if self._told > self._begun:
                self._status("")

    def _aside(self, words: list[str]) -> None:
        found = [name for name in self._asides if name.startswith(words[0])]
        if words[0] in self._asides or len(found) == 1:
            self._asides[words[0] if words[0] in self._asides else found[0]](words[1:])
        else:
            self._write(f"There is no {printable(words[0])}; there are {' '.join(self._asides)}.")

    def _progress(self, steps: int, reply: Reply) -> None:
        now = time.monotonic()
        if now - self._begun >= _TOLD_AFTER and now - self._told >= _TOLD_EVERY:
            self._told = now
            self._status(f"{steps:,} steps so far; Ctrl-C stops")

    def _explain(self, reply: Reply) -> None:
        """Says behind a reply what a newcomer doesn't read in it."""
        told = told_by(self.session.lines)
        if isinstance(reply, Contradiction):
            for premise in reply.premises:
                said = ", ".join(map(str, told.premises.get(premise, ())))
                self._write(f"  {premise} says {said or 'nothing any more'}")
        elif isinstance(reply, Value) and reply.because:
            for premise in reply.because:
                if told.side(premise):
                    self._write(f"  {premise} is the plan's {told.side(premise)}")
        elif not is_settled(reply):
            self._write("  (the limit is used up; asked again it goes on from there)")

    def _list(self, words: list[str]) -> None:
        lists: dict[str, Callable[[ToldLines], None]] = {
            "cells": self._list_cells,
            "premises": self._list_premises,
            "choices": self._list_choices,
            "definitions": self._list_definitions,
            "attached": self._list_attached,
        }
        wanted = [name for name in lists if not words or name.startswith(words[0])]
        if not wanted:
            self._write(f"There is no list {printable(words[0])}; there are {' '.join(lists)}.")
        for name in wanted:
            if len(wanted) > 1:
                self._write(f"{name}:")
            lists[name](self._stated())

    def _stated(self) -> ToldLines:
        """What was told, as the program lists it where it does."""
        told, listing = told_by(self.session.lines), listing_of(self.session)
        if listing:
            told.take(listing)
        return told

    def _list_cells(self, told: ToldLines) -> None:
        shown = self._watched(partial(overview, self.session, progress=self._progress))
        self._write(str(shown))

    def _list_premises(self, told: ToldLines) -> None:
        rows = []
        for premise, statements in told.premises.items():
            believed = "" if not premise else "out" if premise in told.kicked else "in"
            said = ", ".join(map(str, statements)) or "(nothing)"
            rows.append((premise or "(fixed)", believed, said))
        self._listed(("premise", "", "says"), rows, "Nothing is told.")

    def _list_choices(self, told: ToldLines) -> None:
        rows: list[tuple[str, ...]] = []
        for choice, sides in told.choices.items():
            names = [f"{choice}={i}" for i in range(1, len(sides) + 1)]
            if choice in told.stands:
                stands = stands_on(told.stands[choice])
                rows += [(it, str(side), stands.get(it, "")) for it, side in zip(names, sides)]
            else:
                rows += [(it, str(side)) for it, side in zip(names, sides)]
        heads = ("side", "says", "") if told.stands else ("side", "says")
        self._listed(heads, rows, "There are no choices.")

    def _list_definitions(self, told: ToldLines) -> None:
        self._write("\n".join(told.definitions.values()) or "Nothing is defined but the prelude.")

    def _list_attached(self, told: ToldLines) -> None:
        self._write("\n".join(told.attached) or "Nothing is attached.")

    def _listed(self, heads: Sequence[str], rows: Sequence[Sequence[str]], nothing: str) -> None:
        self._write(table(heads, rows) if rows else nothing)

    def _undo(self, words: list[str]) -> None:
        lines = self.session.lines
        while lines and lines[-1].split()[0] in _KEPT:
            lines.pop()
        if not lines:
            self._write("There is nothing to take back.")
            return
        taken, limit = lines.pop(), self.session.limit
        self.session.replay([*lines, f"limit {limit}"])
        self._write(f"Taken back: {printable(taken.strip())}")

    def _step(self, words: list[str]) -> None:
        number, *more = words or ["1"]
        if more or not number.isdecimal():
            self._write("Say how many: :step N")
            return
        steps = int(number)
        cells = list(self.session.known.cells)
        before = self._looked(cells)
        self._take(steps)
        after = self._looked(cells)
        rows = [(cell, before[cell], after[cell]) for cell in after if before[cell] != after[cell]]
        if rows:
            self._write(table(("cell", "before", "now"), rows))
        [end] = self.session.look(["settle"])
        self._write(str(end) if not isinstance(end, Unsettled) else "There is more to do.")

    def _take(self, steps: int) -> None:
        """Takes so many steps, or as many as there are, and tells each where the program does."""
        try:
            for _ in range(steps):
                step = self.session.step()
                if not isinstance(step.did, Called | Moved | Searched):
                    return
                self._write("\n".join(map(printable, lines_on(step))))
        except UnknownCommand:
            limit = self.session.limit
            self.session.send_all([f"limit {steps}"])
            try:
                self.session.send("settle")
            finally:
                self.session.send_all([f"limit {limit}"])

    def _looked(self, cells: list[str]) -> dict[str, str]:
        """What is known of cells now, as text."""
        replies = self.session.look(f"ask {cell}" for cell in cells)
        return {
            cell: str(reply.value) if isinstance(reply, Value) else "(in conflict)"
            for cell, reply in zip(cells, replies)
        }

    def _how(self, words: list[str]) -> None:
        cell, *more = words or [""]
        if not cell or more not in ([], [_ALL]):
            self._write("Say of which cell: :how X, or :how X all")
            return
        claim = SessionWatched(self.session).how(cell)
        self._write(claim.whole() if more else str(claim))

    def _draw(self, words: list[str]) -> None:
        cell = words[0] if words and words[0] in self.session.known.cells else None
        path, *more = words[1 if cell else 0 :] or [f"{cell or 'network'}.svg"]
        if more or not path.endswith((".svg", ".dot")):
            self._write("Say what: :draw, :draw X, with the name of a file (.svg or .dot) behind")
            return
        picture_of(SessionWatched(self.session), cell).save(path)
        self._write(f"The picture is in {printable(path)}.")

    def _limit(self, words: list[str]) -> None:
        if words:
            self.session.send(f"limit {words[0]}")
        self._write(f"A run takes at most {self.session.limit:,} steps.")

    def _save(self, words: list[str]) -> None:
        path, *more = words or [""]
        if not path or more not in ([], [_OVERWRITE]):
            self._write("Say where: :save FILE")
            return
        lines = self.session.lines
        text = "".join(f"{line.strip()}\n" for line in lines)
        try:
            self._opened(path).save(text.encode("utf-8", "surrogateescape"), bool(more))
        except ChangedSince as changed:
            self._write(_REFUSED_SAVE.format(changed, printable(path)))
            return
        self._write(f"{len(lines)} lines are written to {path}.")

    def _opened(self, path: str) -> OpenedFile:
        """The file at this path, as it was when it was loaded or saved last."""
        place = os.path.realpath(path)
        if place not in self._files:
            self._files[place] = OpenedFile(path)
        return self._files[place]

    def _load(self, words: list[str]) -> None:
        if len(words) != 1:
            self._write("Say which: :load FILE")
            return
        self.load(words[0])

    def load(self, path: str) -> None:
        """Carries out the lines of a file, up to the first that is refused. Raises OSError."""
        opened = self._files[os.path.realpath(path)] = OpenedFile(path)
        lines = lines_of(path)
        for number, line in enumerate(lines, 1):
            try:
                reply = self._watched(partial(self.session.send, line, progress=self._progress))
            except Refused as refused:
                refused.line_number = number
                opened.was_read_in_part()
                self._write(told_of(refused, printable(path)))
                return
            if not isinstance(reply, Done | Silent):
                self._write(f"{printable(line.strip())}\n{printable_lines(reply)}")
        self._write(f"{len(lines)} lines of {printable(path)} are carried out.")

    def _resume(self, words: list[str]) -> None:
        if not self._left:
            self._write("Nothing was cut off.")
        elif words == ["no"]:
            self._left.pop(0).forget()
            self.offer()
        elif words:
            self._write("Say it alone, or no behind it: :resume, :resume no")
        elif self.session.lines != self._first:
            self._write("Say it first of all in a new shell: what is stated here would be lost.")
        else:
            self._go_on(self._left[0])

    def _go_on(self, with_it: CutJournal) -> None:
        """Begins anew with the lines of a journal, which goes once this one's has them."""
        outcomes = self.session.replay(with_it.lines)
        refused = [each for each in outcomes if isinstance(each, Refused)]
        self._keep()
        if refused:
            self._write(refused[0].told())
            self._write(f"{len(refused)} lines of {with_it.path} are refused here; it stays.")
            return
        self._left.pop(0)
        with_it.forget()
        self._write(f"{len(with_it.lines)} lines are carried out.")

    def _help(self, words: list[str]) -> None:
        if words:
            self._write(help_on(words[0], self.session.known))
            return
        self._write(all_help())
        self._write("")
        self._write(table(("at this desk", ""), list(ASIDES.items()), most=columns()))

    def _quit(self, words: list[str]) -> None:
        raise Quit


def lines_on(step: Step) -> list[str]:
    """What a step did, in lines for a user: none where it is the end."""
    did = step.did
    if isinstance(did, Called):
        words = (did.procedure, *did.inputs, did.output)
        return [f"called {' '.join(words)}: {did.says}"]
    if isinstance(did, Searched):
        return [" ".join(did.told)]
    if isinstance(did, Moved):
        return [f"moved {did.left} to {did.taken}: impossible together: {' '.join(did.nogood)}"]
    return []


def stands_on(stand: Stand) -> dict[str, str]:
    """What there is to say of the sides of a choice: where it stands, and why others were left."""
    found = {side: f"impossible: {' '.join(names)}" for side, names in stand.refuted}
    here = "believed" if stand.is_believed else "not believed yet"
    return {**found, f"{stand.choice}={stand.side}": here}


def printable_lines(reply: Reply) -> str:
    """The text of a reply."""
    return "\n".join(map(printable, str(reply).split("\n")))


def run_shell(session: Session, path: str | None, journal: Journal | None = None) -> int:
    """Speaks with the user to the end, and gives the status. The journal, where one is kept, goes
    in the end, but where the terminal was taken away."""
    from propbench.terminal import reader

    shell = Shell(session, print, _show_status, journal)
    is_terminal = sys.stdin.isatty()
    print(WELCOME)
    if not session.proved:
        print(UNPROVED)
    if path:
        shell.load(path)
    if journal is not None:
        shell.offer()
    read = reader(session)
    while True:
        try:
            shell.obey(read())
        except KeyboardInterrupt:
            continue
        except (EOFError, Quit):
            if journal is not None and is_terminal == sys.stdin.isatty():
                journal.end()
            return 0


def _show_status(text: str) -> None:
    if sys.stderr.isatty():
        print(f"\r\x1b[K{text}", end="", file=sys.stderr, flush=True)
