"""Where unproved programs are kept: one for each state of the sources. A lock is for who builds.

What is kept is run, so it has to be one's own: nobody else, but root, may have made or be able to
change a program, its folder, or a folder above it.
"""
import contextlib
import fcntl
import glob
import hashlib
import os
import shutil
import stat
import tempfile
from collections.abc import Callable, Iterator

from proved import TOP, sources

# How many programs are kept, those that were started last.
MOST = 8
# What the name of a folder begins with in which a program is built.
BUILD = "build-"


def state(of: str) -> str:
    """A checksum of the sources of an unproved program, and one of the toolchain if it is there."""
    found = hashlib.sha256()
    for path in sorted(it.path for it in sources(of, "src")):
        with open(path, "rb") as it:
            text = it.read()
        found.update(f"{os.path.relpath(path, TOP)} {len(text)}\n".encode() + text)
    return f"{found.hexdigest()[:16]}-{kit()}"


def kit() -> str:
    """A checksum that tells the toolchain from others, or nothing where rt is not on the path."""
    tool = shutil.which("rt")
    if not tool:
        return ""
    tool = os.path.realpath(tool)
    about = os.stat(tool)
    told = f"{tool} {about.st_size} {about.st_mtime_ns}"
    return hashlib.sha256(told.encode()).hexdigest()[:8]


def candidates() -> Iterator[str]:
    """The folders that programs may be kept in, the one to be tried first in front."""
    cache = os.environ.get("XDG_CACHE_HOME", "")
    if not os.path.isabs(cache):
        # (the standard says that another value is to be ignored)
        cache = os.path.expanduser("~/.cache")
    if os.path.isabs(cache):
        yield f"{cache}/propbench"
    yield f"{TOP}/out/cache"


def folder() -> str | None:
    """The first of them that can be written to and is one's own, made where it is not there yet, or
    None."""
    mask = os.umask(0o077)
    try:
        for path in candidates():
            with contextlib.suppress(OSError):
                os.makedirs(path, exist_ok=True)
                if os.access(path, os.W_OK | os.X_OK) and not not_own(path):
                    return path
    finally:
        os.umask(mask)
    return None


def not_own(path: str) -> str | None:
    """Why what lies at a path is not to be run or built in, or None where it is one's own.

    Each folder above is looked at, of a copy of the repository up to that: who may change that
    changes this very script. In a sticky folder, as /tmp, others can't replace what is one's own.
    """
    real = os.path.realpath(path)
    is_above = False
    while real != os.path.realpath(TOP):
        about = os.stat(real)
        if about.st_uid not in (0, os.geteuid()):
            return f"{real} is another user's"
        is_sticky = is_above and about.st_mode & stat.S_ISVTX
        if about.st_mode & 0o022 and not is_sticky:
            return f"others may write to {real}: `chmod go-w {real}` keeps them out"
        real, last, is_above = os.path.dirname(real), real, True
        if real == last:
            break
    return None


def kept_program(
    of: str, state_of: str, tell: Callable[[str], None] = lambda why: None
) -> str | None:
    """The path of a program that is kept for a state, or None; without a toolchain any one's. Of
    one that is not one's own it is told why it is passed over."""
    name = f"{state_of}*" if state_of.endswith("-") else state_of
    for path in candidates():
        for program in glob.glob(f"{glob.escape(path)}/{name}/{of}"):
            if os.access(program, os.X_OK):
                why = not_own(program)
                if why:
                    tell(why)
                    continue
                with contextlib.suppress(OSError):
                    os.utime(os.path.dirname(program))
                return program
    return None


def is_taken(lock: int) -> bool:
    """Takes a lock where nobody else holds it."""
    try:
        fcntl.flock(lock, fcntl.LOCK_EX | fcntl.LOCK_NB)
    except BlockingIOError:
        return False
    return True


@contextlib.contextmanager
def held(where: str, tell: Callable[[], None], pause: Callable[[], None]) -> Iterator[None]:
    """Holds the folder's lock. Where another holds it, `tell` is called before it is waited for,
    and `pause` between two looks."""
    lock = os.open(f"{where}/lock", os.O_RDWR | os.O_CREAT | os.O_CLOEXEC, 0o600)
    try:
        if not is_taken(lock):
            tell()
            while not is_taken(lock):
                pause()
        yield
    finally:
        os.close(lock)


def swept(where: str) -> None:
    """Removes what builds left that were killed. The lock has to be held."""
    for it in os.scandir(where):
        if it.name.startswith(BUILD):
            shutil.rmtree(it.path, ignore_errors=True)


def keep(program: str, where: str, of: str, state_of: str) -> str:
    """Puts a program, which lies below the same folder, where it is kept under its name, and drops
    the oldest."""
    place = f"{where}/{state_of}"
    if os.path.lexists(place) and not_own(place):
        # (it goes with what builds leave)
        os.rename(place, tempfile.mkdtemp(prefix=BUILD, dir=where) + "/other")
    os.makedirs(place, mode=0o700, exist_ok=True)
    os.chmod(program, 0o755)
    os.replace(program, f"{place}/{of}")
    others = [it for it in os.scandir(where) if it.is_dir()]
    others = [it for it in others if it.name != state_of and not it.name.startswith(BUILD)]
    for it in sorted(others, key=lambda it: it.stat().st_mtime, reverse=True)[MOST - 1 :]:
        shutil.rmtree(it.path, ignore_errors=True)
    return f"{place}/{of}"
