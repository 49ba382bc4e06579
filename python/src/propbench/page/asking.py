"""What a page asks, and what comes of it: each question a method, each answer values for JSON.

Questions are carried out one after another. One that takes long can be stopped from another thread,
and is when who asked is gone; the session goes on then.
"""

import os
import sys
import threading
from collections.abc import Callable, Iterator, Mapping
from contextlib import contextmanager
from dataclasses import asdict, replace

from propbench.files import ChangedSince, OpenedFile
from propbench.program import OutOfTime, ProgramEnded
from propbench.questions.asking import Interrupted
from propbench.refusals import Refused
from propbench.replies import Reply
from propbench.session import SessionInUse
from propbench.showing import printable, quoted, said_of, shown
from propbench.watching import (
    Frame,
    NetworkSeen,
    SeenNow,
    Steps,
    Use,
    ValueSeen,
    Watched,
    bears,
)

# What changes what is stated.
CHANGING = frozenset(("believe", "wish", "apply", "line"))
# How a file is called that has no name yet: what is read from standard input.
UNNAMED = "-"
# A page is told of so many steps at once at the most.
_MOST_STEPS = 200
# So many reasons are told of a cell that nobody looks at.
_MOST_REASONS = 6
# What is run has so many seconds to end when the page is closed.
_LAST_SECONDS = 5.0
_CLOSED = "the page is closed"


class Stopped(KeyboardInterrupt):
    """The user stopped what was run."""


def _nobody() -> bool:
    """Says that who asks is not gone."""
    return False


class ServedNetwork:
    """What is served: a session or a workbench, and the file that it came from, if any; one that
    has no name yet is UNNAMED."""

    def __init__(self, watched: Watched, title: str, file: OpenedFile | None) -> None:
        self._watched, self._title, self._file = watched, title, file
        self._lock = threading.RLock()
        self._stop = threading.Event()
        self._is_closed = False
        # Whether who asks is gone.
        self._is_gone: Callable[[], bool] = _nobody
        self._busy = ""
        # Whether what is asked now changes what is stated.
        self._changes = False
        self._changing = CHANGING
        # How often something may have changed; what was seen last, and the network as it was then.
        self._version = 1
        self._seen: SeenNow | None = None
        self._shape: NetworkSeen | None = None
        self._shapes = 0
        self._steps: Steps | None = None
        self._does: dict[str, Callable[[Mapping[str, object]], dict[str, object]]] = {
            "look": self._look_again,
            "believe": self._believe,
            "wish": self._wish,
            "cell": self._cell,
            "core": self._core,
            "mend": self._mend,
            "try": self._try,
            "apply": self._apply,
            "best": self._best,
            "steps": self._step,
            "line": self._line,
            "replay": self._replay,
            "save": self._save,
        }

    def close(self) -> None:
        """Ends what is run, and the sessions of its own, and refuses what is asked from now on."""
        self._is_closed = True
        if self._lock.acquire(timeout=_LAST_SECONDS):
            try:
                self._end_steps()
            finally:
                self._lock.release()

    @contextmanager
    def held(self) -> Iterator[None]:
        """Nobody asks meanwhile, and afterwards the page looks anew."""
        with self._lock:
            try:
                yield
            finally:
                self._changed()

    def version(self) -> dict[str, object]:
        """How often something has changed, and what is being done now."""
        return {"version": self._version, "busy": self._busy}

    def stop(self) -> None:
        """Ends what is run."""
        self._stop.set()

    def state(self, is_gone: Callable[[], bool] = _nobody) -> dict[str, object]:
        """All that a page shows."""
        with self._lock, self._watching("looking", is_gone):
            return self._with_network(self._told())

    def saved(self) -> str:
        """The file of lines that it is saved as."""
        with self._lock:
            return "".join(f"{line}\n" for line in self._watched.saved())

    def file_text(self) -> bytes:
        """What its own file holds once it is saved."""
        return self.saved().encode("utf-8", "surrogateescape")

    def do(
        self, asked: Mapping[str, object], is_gone: Callable[[], bool] = _nobody
    ) -> dict[str, object]:
        """What comes of a question. Raises ValueError for one that can't be asked."""
        what = text_in(asked, "what")
        if what not in self._does:
            raise ValueError(f"there is no question {what!r}")
        with self._lock, self._watching(what, is_gone):
            self._changes = what in self._changing
            return self._does[what](asked)

    def _keep(self) -> None:
        """Has the journal hold what a change has made, before it is looked what follows."""
        journal = None if self._file is None or not self._changes else self._file.journal
        if journal is None or (journal.is_empty and self._is_saved()):
            return
        told = journal.keep(self._kept())
        if told:
            print(shown(told), file=sys.stderr)

    def _kept(self) -> list[str]:
        """The lines of a journal that one can go on with."""
        return self._watched.saved()

    def _is_saved(self) -> bool:
        """Whether the file has all that there is, as it was opened or saved last."""
        content = self.saved().encode("utf-8", "surrogateescape")
        return self._file is not None and self._file.had(content)

    # --- questions ---

    def _look_again(self, asked: Mapping[str, object]) -> dict[str, object]:
        """Goes on with a run that was stopped."""
        return self._with_network(self._changed_told())

    def _believe(self, asked: Mapping[str, object]) -> dict[str, object]:
        premise = self._premise(text_in(asked, "premise"))
        self._watched.believe(premise, asked.get("believed") is True)
        return self._changed_told()

    def _wish(self, asked: Mapping[str, object]) -> dict[str, object]:
        choices = {each.name: each for each in self._watched.network().choices}
        name, side = text_in(asked, "choice"), asked.get("side")
        if name not in choices:
            raise ValueError(f"there is no choice {printable(name)}")
        if side is not None and not (type(side) is int and 0 <= side < len(choices[name].sides)):
            raise ValueError(f"the choice {printable(name)} has no such side")
        self._watched.wish(name, side if isinstance(side, int) else None)
        return self._with_network(self._changed_told())

    def _cell(self, asked: Mapping[str, object]) -> dict[str, object]:
        cell = self._cell_named(asked)
        seen = self._look()
        shown = seen.values.get(cell)
        if shown is None:
            return {"shown": None, "bears": None, "how": "", "whole": ""}
        lit = bears(self._watched, seen, shown)
        names = {
            "cells": sorted(lit.cells),
            "uses": sorted(lit.uses),
            "premises": sorted(lit.premises),
            "choices": sorted(lit.choices),
        }
        claim = lit.claim if lit.claim and lit.claim.ways else None
        how = {"how": str(claim) if claim else ""}
        how["whole"] = claim.whole() if claim and claim.is_folded else ""
        return {"shown": _shown(shown), "bears": names, **how}

    def _core(self, asked: Mapping[str, object]) -> dict[str, object]:
        shown = self._watched.core(self._cell_named(asked), self._progress)
        return {"shown": None if shown is None else _shown(shown)}

    def _mend(self, asked: Mapping[str, object]) -> dict[str, object]:
        return asdict(self._watched.mend(self._telling))

    def _try(self, asked: Mapping[str, object]) -> dict[str, object]:
        return {"seen": _seen(self._watched.without(self._premises(asked), self._progress))}

    def _apply(self, asked: Mapping[str, object]) -> dict[str, object]:
        for premise in self._premises(asked):
            self._watched.believe(premise, False)
        return self._changed_told()

    def _best(self, asked: Mapping[str, object]) -> dict[str, object]:
        sort = text_in(asked, "sort")
        if sort not in ("least", "greatest"):
            raise ValueError(f"there is no {sort!r} value")
        return asdict(self._watched.best(self._cell_named(asked), sort, self._telling))

    def _step(self, asked: Mapping[str, object]) -> dict[str, object]:
        since, upto = asked.get("from"), asked.get("to")
        if type(since) is not int or type(upto) is not int or not 0 <= since <= upto:
            raise ValueError("steps are numbered from 0")
        if self._steps is None or since == 0:
            self._end_steps()
            self._steps = self._watched.steps()
        frames: list[dict[str, object]] = []
        for number in range(since, min(upto, since + _MOST_STEPS - 1) + 1):
            taken = self._steps.take(number)
            if len(taken) <= number:
                break
            frames.append(_frame(taken[number]))
            self._telling(f"step {number}")
        return {"frames": frames}

    def _line(self, asked: Mapping[str, object]) -> dict[str, object]:
        line = text_in(asked, "line")
        if self._watched.is_workbench:
            raise ValueError("a workbench takes no lines: it is stated in Python")
        reply: Reply | None = None
        said = ""
        try:
            reply = self._watched.session.send(line, progress=self._progress)
        except Refused as refused:
            said = refused.told()
        told = self._with_network(self._changed_told())
        return {**told, "reply": said or str(reply), "refused": bool(said)}

    def _replay(self, asked: Mapping[str, object]) -> dict[str, object]:
        before = self._look()
        self._watched.replay()
        told = self._changed_told()
        return {**told, "same": _same(before, self._look())}

    def _save(self, asked: Mapping[str, object]) -> dict[str, object]:
        if self._file is None:
            raise ValueError("no file was opened: download the lines")
        file = self._file
        if "as" in asked:
            file = _beside(file, text_in(asked, "as"))
        elif file.path == UNNAMED:
            return {"saved": None, "says": "What shall the file be called?", "difference": []}
        try:
            is_meant = file is self._file and asked.get("overwrite") is True
            before, self._file = self._file, file
            try:
                file.save(self.file_text(), is_meant)
            except BaseException:
                self._file = before
                raise
        except ChangedSince as changed:
            return {"saved": None, "says": changed.said, "difference": changed.difference}
        return {"saved": printable(file.path), "says": "", "difference": []}

    # --- what is told ---

    def _told(self) -> dict[str, object]:
        network = self._watched.network()
        shape = replace(
            network, premises=tuple(replace(each, is_believed=True) for each in network.premises)
        )
        if shape != self._shape:
            self._shape, self._shapes = shape, self._shapes + 1
        return {
            "seen": _seen(self._look()),
            "believed": [each.name for each in network.premises if each.is_believed],
            "wished": self._watched.wished(),
            "version": self._version,
            "shape": self._shapes,
        }

    def _with_network(self, told: dict[str, object]) -> dict[str, object]:
        watched = self._watched
        return {
            **told,
            "title": printable(self._title),
            "file": None if self._file is None else printable(self._file.path),
            "proved": watched.session.proved,
            "workbench": watched.is_workbench,
            "network": _network(watched.network()),
            "lines": [printable(line) for line in watched.lines()],
        }

    def _look(self) -> SeenNow:
        if self._seen is None:
            try:
                self._seen = self._watched.see(self._progress)
            except Stopped:
                self._seen = self._watched.known()
        return self._seen

    def _changed(self) -> None:
        self._seen = None
        self._version += 1
        self._end_steps()

    def _changed_told(self) -> dict[str, object]:
        self._changed()
        self._keep()
        return self._told()

    def _end_steps(self) -> None:
        if self._steps is not None:
            self._steps.close()
            self._steps = None

    # --- names ---

    def _cell_named(self, asked: Mapping[str, object]) -> str:
        name = text_in(asked, "cell")
        if not any(cell.name == name for cell in self._watched.network().cells):
            raise ValueError(f"there is no cell {printable(name)}")
        return name

    def _premise(self, name: str) -> str:
        if not any(premise.name == name for premise in self._watched.network().premises):
            raise ValueError(f"there is no premise {printable(name)}")
        return name

    def _premises(self, asked: Mapping[str, object]) -> list[str]:
        names = asked.get("premises")
        if not isinstance(names, list) or not all(isinstance(name, str) for name in names):
            raise ValueError("premises are a list of names")
        return [self._premise(name) for name in names]

    # --- runs ---

    @contextmanager
    def _watching(self, what: str, is_gone: Callable[[], bool]) -> Iterator[None]:
        """Tells that something is done, and turns what goes wrong into ValueError."""
        if self._is_closed:
            raise ValueError(_CLOSED)
        self._stop.clear()
        self._is_gone = is_gone
        self._busy = what
        try:
            # (a change is carried out also where its page was closed at once)
            if what not in self._changing:
                self._telling(what)
            yield
        except (Stopped, Interrupted):
            self._changed()
            raise ValueError("stopped; the next question goes on from there") from None
        except SessionInUse as error:
            raise ValueError(
                f"{error} (beside a page it is used within `with page.held():`)"
            ) from None
        except (ProgramEnded, OutOfTime, RuntimeError) as ended:
            # (a session that is closed meanwhile raises one or the other)
            if self._is_closed:
                raise ValueError(_CLOSED) from None
            if isinstance(ended, RuntimeError):
                raise
            self._watched.replay()
            self._changed()
            raise ValueError(f"{ended}; it is begun anew with what was carried out") from None
        except Refused as refused:
            self._changed()
            raise ValueError(refused.told()) from None
        except OSError as error:
            raise ValueError(said_of(error)) from None
        finally:
            self._busy = ""
            self._is_gone = _nobody

    def _progress(self, steps: int, reply: Reply) -> None:
        self._telling(f"{steps:,} steps so far")

    def _telling(self, text: str) -> None:
        self._busy = text
        if self._stop.is_set() or self._is_closed or self._is_gone():
            raise Stopped


def _beside(file: OpenedFile, name: str) -> OpenedFile:
    """A new file beside this one; one without a name lies where the server was begun. Raises
    ValueError for what is no name, and where something has it."""
    if name in ("", ".", "..") or "/" in name or "\0" in name or name.startswith("."):
        raise ValueError(f"a file is saved beside the other, by its name alone: {quoted(name)}")
    path = os.path.join(os.path.dirname(file.path), name)
    if os.path.lexists(path):
        raise ValueError(f"there is something called {quoted(name)} already: take another name")
    made = OpenedFile(path)
    made.journal = file.journal
    return made


def text_in(asked: Mapping[str, object], key: str) -> str:
    """A text of a question. Raises ValueError where it has none."""
    value = asked.get(key)
    if not isinstance(value, str):
        raise ValueError(f"a question has {key!r}, which is a text")
    return value


def place_in(asked: Mapping[str, object]) -> int:
    """The place of a row in a question. Raises ValueError where it has none."""
    value = asked.get("place")
    if type(value) is not int:
        raise ValueError("a place is a number")
    return value


def _same(before: SeenNow, after: SeenNow) -> bool:
    """Whether the same was seen, whichever reasons were named."""
    if before.clash or after.clash:
        return bool(before.clash) == bool(after.clash)
    return {name: each.text for name, each in before.values.items()} == {
        name: each.text for name, each in after.values.items()
    }


def _network(network: NetworkSeen) -> dict[str, object]:
    return {
        "cells": [vars(cell) for cell in network.cells],
        "uses": [_use(use) for use in network.uses],
        "premises": [asdict(premise) for premise in network.premises],
        "choices": [asdict(choice) for choice in network.choices],
    }


def _frame(frame: Frame) -> dict[str, object]:
    """A step, with the reasons as texts."""
    changes = [
        {**vars(each), "because": [reason.text for reason in each.because]}
        for each in frame.changes
    ]
    return {**vars(frame), "changes": changes}


def _use(use: Use) -> dict[str, object]:
    parts = [leaf.text for leaf in use.leaves()] if use.parts else []
    return {
        "name": use.name,
        "text": f"{use.text} by {use.given}" if use.given else use.text,
        "cells": use.cells,
        "premise": use.premise,
        "parts": parts,
    }


def _seen(seen: SeenNow) -> dict[str, object]:
    return {
        "values": [_briefly(each) for each in seen.values.values()],
        "settled": seen.settled,
        "clash": None if seen.clash is None else asdict(seen.clash),
        "plan": dict(seen.plan),
    }


def _briefly(shown: ValueSeen) -> dict[str, object]:
    """What is shown of each cell at once: of many reasons the first, and how many are left."""
    return {
        "cell": shown.cell,
        "text": shown.text,
        "because": [each.text for each in shown.because[:_MOST_REASONS]],
        "more": max(0, len(shown.because) - _MOST_REASONS),
        "settled": shown.settled,
        "known": shown.is_known,
    }


def _shown(shown: ValueSeen) -> dict[str, object]:
    return {
        "cell": shown.cell,
        "text": shown.text,
        "because": [each.text for each in shown.because],
        "settled": shown.settled,
        "reduced": shown.reduced,
        "known": shown.is_known,
    }
