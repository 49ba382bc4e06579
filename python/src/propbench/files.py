"""How a file is written: whole, or not at all; and whether somebody else has changed it meanwhile.

What is saved goes into a new file beside the old one, down to the disk, and takes its place then.
Where anything goes wrong on the way, or the process is killed, the old file is as it was.
"""

import errno
import os
import stat
from collections.abc import Callable, Iterator
from contextlib import suppress
from typing import TYPE_CHECKING

from propbench.showing import cut, printable

if TYPE_CHECKING:
    from propbench.journal import Journal

# What the name of a file begins with that is not yet in its place; a kill may leave one.
PART = ".propbench-part-"
# So many lines of a difference are shown, and of files of more lines none.
_SHOWN, _COMPARED = 40, 5000
# Spreadsheets begin so.
_ZIP = b"PK"
CHANGED = "was changed by somebody else since it was opened"
# (a part is nobody else's, and no link is followed to make it)
_NEW = os.O_WRONLY | os.O_CREAT | os.O_EXCL | os.O_NOFOLLOW | os.O_CLOEXEC


class ChangedSince(ValueError):
    """A file holds what was not read from it: it is left as it is. `difference` are lines, `-` in
    front of what is there and `+` of what was to be saved."""

    def __init__(self, path: str, why: str, difference: list[str]) -> None:
        self.said = f"{cut(path)} {why}; nothing is saved."
        self.difference = difference
        super().__init__("\n".join([self.said, *difference]))


def write_file(
    path: str | os.PathLike[str],
    content: str | bytes,
    before: Callable[[], None] = lambda: None,
) -> None:
    """Writes a file whole: a text as UTF-8. One that is there is replaced, and keeps its mode, and
    its owner where that may be; a symbolic link goes on leading to it, another hard link keeps what
    was there. What is no file, as a pipe or /dev/stdout, is written to as it is.

    `before` is called when all is written and takes its place next. Raises OSError, with the path
    that was given, UnicodeEncodeError, and what `before` raises; the old file is as it was then.
    """
    data = content if isinstance(content, bytes) else content.encode()
    shown = os.fspath(path)
    try:
        real = os.path.realpath(path)
        old = _stat(real)
        if old is not None and not stat.S_ISREG(old.st_mode):
            before()
            with open(real, "wb") as device:
                device.write(data)
            return
        if old is not None and not os.access(real, os.W_OK):
            # (a folder that may be written to would let it be replaced all the same)
            raise PermissionError(errno.EACCES, os.strerror(errno.EACCES))
        _replace(real, old, data, before)
    except OSError as error:
        if error.errno is None:
            raise
        raise OSError(error.errno, os.strerror(error.errno), shown) from error


def _stat(path: str) -> os.stat_result | None:
    try:
        return os.stat(path)
    except FileNotFoundError:
        return None


def _replace(
    path: str, old: os.stat_result | None, data: bytes, before: Callable[[], None]
) -> None:
    """Has a file with this content take the place of what is there, if anything."""
    import secrets

    folder = os.path.dirname(path)
    part = os.path.join(folder, PART + secrets.token_hex(8))
    descriptor = os.open(part, _NEW, 0o666 if old is None else 0o600)
    try:
        with open(descriptor, "wb") as file:
            file.write(data)
            file.flush()
            if old is not None:
                _be_like(descriptor, old)
            os.fsync(descriptor)
        before()
        os.rename(part, path)
    except BaseException:
        with suppress(FileNotFoundError):
            os.unlink(part)
        raise
    _sync_folder(folder)


def _be_like(descriptor: int, old: os.stat_result) -> None:
    """Gives a new file the owner and the mode of an old one. Where it can't have the group, that of
    the new one may do no more than anybody."""
    mode = stat.S_IMODE(old.st_mode)
    new = os.fstat(descriptor)
    if (new.st_uid, new.st_gid) != (old.st_uid, old.st_gid):
        try:
            os.fchown(descriptor, old.st_uid, old.st_gid)
        except OSError:
            mode = mode & ~0o6070 | (mode & 0o007) << 3
    os.fchmod(descriptor, mode)


def _sync_folder(folder: str) -> None:
    """Has the new name of a file outlast a power cut, where the folder's file system can. (It is in
    its place in any case, so that nothing is to be said where it can't.)"""
    with suppress(OSError):
        descriptor = os.open(folder, os.O_RDONLY | os.O_DIRECTORY | os.O_CLOEXEC)
        try:
            os.fsync(descriptor)
        finally:
            os.close(descriptor)


class OpenedFile:
    """A file that was read, or will be made, and is saved again: `path` is how it was named, and
    `journal` has what is not saved in it yet, where one is kept."""

    def __init__(self, path: str, checksum: str | None = None) -> None:
        """Takes note of what is there now, so that it is made before the file is read; or of what
        was there when its content had this checksum."""
        self.path = path
        self.journal: "Journal | None" = None
        self._known = _checksum(_content(path)) if checksum is None else checksum
        self._why = CHANGED

    @property
    def checksum(self) -> str | None:
        """That of what was read or saved last, None where there was no file."""
        return self._known

    def had(self, content: bytes) -> bool:
        """Whether this is what was read or saved last."""
        return _checksum(content) == self._known

    def was_read_in_part(self) -> None:
        """Takes note that what is there is not all known here."""
        self._known, self._why = "", "has lines that were not carried out here"

    def save(self, content: str | bytes, overwrite: bool = False) -> None:
        """Writes the file as `write_file` does, where it is as it was when it was read or saved
        last, or is gone, or where it is to `overwrite` it. Raises ChangedSince, and as that does;
        nothing is changed then. What was in the journal is in the file."""
        data = content if isinstance(content, bytes) else content.encode()

        def check() -> None:
            there = _content(self.path)
            if there not in (None, data) and _checksum(there) != self._known:
                raise ChangedSince(self.path, self._why, list(_difference(there or b"", data)))

        if not overwrite:
            check()
        write_file(self.path, data, check if not overwrite else lambda: None)
        self._known, self._why = _checksum(data), CHANGED
        if self.journal is not None:
            self.journal.saved(os.path.realpath(self.path), self._known)


def _content(path: str) -> bytes | None:
    """What is in a file; None where there is none, or one that is read only once, as a pipe."""
    found = _stat(os.path.realpath(path))
    if found is None or not stat.S_ISREG(found.st_mode):
        return None
    with open(path, "rb") as file:
        return file.read()


def _checksum(content: bytes | None) -> str | None:
    import hashlib

    return None if content is None else hashlib.sha256(content).hexdigest()


def _difference(there: bytes, here: bytes) -> Iterator[str]:
    """The lines in which two contents differ, the first of them."""
    import difflib

    if there.startswith(_ZIP):
        yield "(what is there is no text, so it can't be shown line by line)"
        return
    old, new = (part.decode("utf-8", "surrogateescape").splitlines() for part in (there, here))
    if len(old) + len(new) > _COMPARED:
        yield f"({len(old)} lines are there, and {len(new)} here)"
        return
    found = [line for line in difflib.unified_diff(old, new, n=0, lineterm="")][2:]
    lines = [f"{line[0]} {cut(line[1:])}" for line in found if line[0] in "-+"]
    yield from map(printable, lines[:_SHOWN])
    if len(lines) > _SHOWN:
        yield f"({len(lines) - _SHOWN} more)"
