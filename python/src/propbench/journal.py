"""A journal: the lines that a shell, a page or a notebook carries out, on the disk as they come.

After a kill, a power cut or a closed terminal another one offers to go on with them. A journal is a
file of the language that its owner alone may read, in a folder of his own; who runs holds a lock on
it, so that one without a lock was cut off. What ends well takes its journal away.
"""

import fcntl
import json
import os
import secrets
import stat
import time
from collections.abc import Iterator, Sequence
from contextlib import contextmanager, suppress
from dataclasses import dataclass
from pathlib import Path

from propbench.showing import said_of
from propbench.words import as_line, encoded

# The variable that turns journals off, and the word that does it.
VARIABLE, OFF = "PROPBENCH_JOURNAL", "off"
# So many bytes a journal has at the most, and so many are kept that nobody went on with, for so
# many days.
MOST_BYTES, MOST_FILES, MOST_DAYS = 8_000_000, 20, 30
_HEAD, _ENDING = b"# propbench journal 1 ", ".prop"
_FULL = "The journal is full: what comes now is on the disk once it is saved, and not before."


def state_folder() -> Path:
    """Where what a user did is kept: his own folder, which nobody else may read. It is made where
    it isn't there. Raises OSError, and PermissionError where it is another's."""
    return _own_folder(_state())


def _state() -> Path:
    told = os.environ.get("XDG_STATE_HOME", "")
    # (the standard says that a path which isn't absolute is to be ignored)
    state = told if os.path.isabs(told) else os.path.expanduser("~/.local/state")
    return Path(state) / "propbench"


def _own_folder(folder: Path) -> Path:
    folder.mkdir(mode=0o700, parents=True, exist_ok=True)
    found = folder.lstat()
    if not stat.S_ISDIR(found.st_mode) or found.st_uid != os.getuid():
        raise PermissionError(0, "is no folder of yours", str(folder))
    if found.st_mode & 0o077:
        folder.chmod(0o700)
    return folder


def is_on() -> bool:
    """Whether journals are kept, as far as the environment says."""
    return os.environ.get(VARIABLE, "").lower() != OFF


class Journal:
    """The journal of one conversation: a "shell", a "page" or a "notebook", about a file, if about
    any. Nothing is written before the first line."""

    def __init__(self, sort: str, file: str = "", checksum: str | None = None) -> None:
        """`checksum` is that of the file as it was opened."""
        self._about: dict[str, str | None] = {
            "sort": sort,
            "file": file,
            "checksum": checksum,
        }
        self._lines: list[str] = []
        self._size = 0
        self._path: Path | None = None
        self._descriptor = -1
        self._is_on = is_on()

    def keep(self, lines: Sequence[str]) -> str:
        """Has the journal hold these lines, down to the disk: where they go on from those that it
        has, what is new is added. Gives what is to be told of it, "" for nothing; it never raises.
        """
        if not self._is_on or (not lines and self._path is None):
            return ""
        try:
            goes_on = self._path is not None and list(lines[: len(self._lines)]) == self._lines
            new = list(lines[len(self._lines) :] if goes_on else lines)
            data = b"".join(encoded(line) + b"\n" for line in new)
            if len(data) + (self._size if goes_on else 0) > MOST_BYTES:
                self._is_on = False
                return _FULL
            if goes_on:
                self._append(data)
            else:
                self._begin(data)
            self._lines = list(lines)
        except OSError as error:
            self._is_on = False
            return f"No journal is kept: {said_of(error)}"
        return ""

    @property
    def is_empty(self) -> bool:
        """Whether nothing is kept in it."""
        return self._path is None

    def saved(self, file: str, checksum: str | None) -> None:
        """Ends it: all is in this file, of which the next lines are."""
        self.end()
        self._about |= {"file": file, "checksum": checksum}

    def end(self) -> None:
        """Takes the journal away: all is well. More lines begin another."""
        if self._path is not None:
            with suppress(OSError):
                self._path.unlink()
        self.leave()

    def leave(self) -> None:
        """Lets go of the journal, so that another may go on with it."""
        if self._path is not None:
            os.close(self._descriptor)
        self._path, self._lines, self._size = None, [], 0

    def _append(self, data: bytes) -> None:
        if data:
            _write(self._descriptor, data)
            self._size += len(data)

    def _begin(self, data: bytes) -> None:
        """A new file, and behind it the end of the old one."""
        folder = _own_folder(state_folder() / "journal")
        _sweep(folder)
        path = folder / f"{time.time_ns():020}-{secrets.token_hex(4)}{_ENDING}"
        flags = os.O_WRONLY | os.O_CREAT | os.O_EXCL | os.O_APPEND | os.O_NOFOLLOW | os.O_CLOEXEC
        about = json.dumps(self._about | {"began": time.strftime("%Y-%m-%d %H:%M")})
        descriptor = os.open(path, flags, 0o600)
        try:
            fcntl.flock(descriptor, fcntl.LOCK_EX)
            _write(descriptor, _HEAD + about.encode() + b"\n" + data)
        except OSError:
            path.unlink()
            os.close(descriptor)
            raise
        _sync(folder)
        self.end()
        self._path, self._descriptor, self._size = path, descriptor, len(data)


def _write(descriptor: int, data: bytes) -> None:
    while data:
        data = data[os.write(descriptor, data) :]
    os.fsync(descriptor)


def _sync(folder: Path) -> None:
    descriptor = os.open(folder, os.O_RDONLY | os.O_CLOEXEC)
    try:
        with suppress(OSError):
            os.fsync(descriptor)
    finally:
        os.close(descriptor)


@dataclass(frozen=True)
class CutJournal:
    """A journal of what was cut off."""

    path: Path
    sort: str
    file: str
    checksum: str | None
    began: str
    lines: list[str]

    def __str__(self) -> str:
        of = f" of {self.file}" if self.file else ""
        some = "1 line" if len(self.lines) == 1 else f"{len(self.lines)} lines"
        return f"A {self.sort}{of} that began at {self.began} was cut off with {some}."

    def forget(self) -> None:
        """Removes it."""
        with suppress(OSError):
            self.path.unlink()


def left(sort: str, file: str | None = None) -> list[CutJournal]:
    """The journals of what was cut off, the newest first: of a sort, and about a file where one is
    told. What can't be read is none."""
    folder = _state() / "journal"
    if not is_on() or not folder.is_dir():
        return []
    found: list[CutJournal] = []
    with suppress(OSError):
        for path in _journals(_own_folder(folder)):
            read = _read(path)
            if read and read.lines and read.sort == sort and file in (None, read.file):
                found.append(read)
    return found


def _journals(folder: Path) -> list[Path]:
    """The files of a folder that are journals by their names, the newest first."""
    return sorted(folder.glob(f"*{_ENDING}"), reverse=True)


@contextmanager
def _without_owner(path: Path) -> Iterator[int | None]:
    """The descriptor of a journal of the user's own that nobody holds; None where that isn't so."""
    try:
        descriptor = os.open(path, os.O_RDONLY | os.O_NOFOLLOW | os.O_NONBLOCK | os.O_CLOEXEC)
    except OSError:
        yield None
        return
    try:
        about = os.fstat(descriptor)
        is_own = stat.S_ISREG(about.st_mode) and about.st_uid == os.getuid()
        is_own = is_own and not about.st_mode & 0o022
        try:
            fcntl.flock(descriptor, fcntl.LOCK_EX | fcntl.LOCK_NB)
        except OSError:
            is_own = False
        yield descriptor if is_own else None
    finally:
        os.close(descriptor)


def _read(path: Path) -> CutJournal | None:
    """What a journal holds. A last line without its end was torn, and is none."""
    with _without_owner(path) as descriptor:
        if descriptor is None or os.fstat(descriptor).st_size > 2 * MOST_BYTES:
            return None
        with open(descriptor, "rb", closefd=False) as file:
            head, *lines = file.read().split(b"\n")[:-1] or [b""]
    try:
        about = json.loads(head.removeprefix(_HEAD)) if head.startswith(_HEAD) else {}
        sort, name, checksum, began = (about[key] for key in ("sort", "file", "checksum", "began"))
    except (ValueError, KeyError, TypeError, RecursionError):
        return None
    if not all(isinstance(each, str) for each in (sort, name, checksum or "", began)):
        return None
    return CutJournal(path, sort, name, checksum, began, [as_line(line) for line in lines])


def _sweep(folder: Path) -> None:
    """Removes the journals that nobody went on with: those that are too many, and too old ones."""
    since = time.time() - MOST_DAYS * 86_400
    for number, path in enumerate(_journals(folder), 1):
        with _without_owner(path) as descriptor:
            is_old = descriptor is not None and os.fstat(descriptor).st_mtime < since
            if descriptor is not None and (is_old or number >= MOST_FILES):
                path.unlink(missing_ok=True)
