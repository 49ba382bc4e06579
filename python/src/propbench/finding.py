"""Where the programs are found, and whether they are known to be proved."""

import os
from collections.abc import Sequence
from contextlib import suppress
from dataclasses import dataclass

# The program, and the one with more rules, for plans and measurements.
PLAIN, WIDE = "propbench", "propwide"
# The first line of a file that a workbench has saved, which is for the program of a workbench.
SAVED = "# A workbench: the lines beginning with #: tell what the others are for."
# Where the Debian package that brings proved programs tells their checksums, by where the folder of
# the programs lies.
_CHECKSUMS = "../share/propbench/proved.sha256"


class NoProgram(Exception):
    """A program that is needed was not found."""


@dataclass(frozen=True)
class FoundProgram:
    """A program, and whether it is known to be built from proofs. One that `builds` may have to be
    built first, for minutes, of which it tells on standard error."""

    path: str
    proved: bool
    builds: bool = False


def repository() -> str | None:
    """The repository that this package stands in, where it does."""
    folder = os.path.dirname(os.path.realpath(__file__))
    top = os.path.normpath(os.path.join(folder, *[os.pardir] * 3))
    return top if _is_repository(top) else None


def find_program(given: str | os.PathLike[str] | None = None) -> FoundProgram:
    """The program to run: the one given, else that of $PROPBENCH, else the built program of this
    repository, else `propbench` on the path, else this repository's unproved build.

    The script `propbench` of a repository stands for the program that is built there, where one is.
    A program is known to be proved where it is the built one of a repository, or has the checksum
    that the Debian package tells which brought it. Raises NoProgram where none is found.
    """
    return _find(given, (PLAIN,))


def find_wide(given: str | os.PathLike[str] | None = None) -> FoundProgram:
    """The program for a workbench: the one given, else that of $PROPWIDE or $PROPBENCH, else
    `propwide` and else `propbench`, each found as `find_program` does. An unproved build is the
    last. Raises NoProgram where none is found."""
    return _find(given, (WIDE, PLAIN))


def find_for(lines: Sequence[str], given: str | os.PathLike[str] | None = None) -> FoundProgram:
    """The program to carry out lines with: that for a workbench, where one has saved them. Raises
    NoProgram where none is found."""
    return find_wide(given) if SAVED in lines[:1] else find_program(given)


def _find(given: str | os.PathLike[str] | None, names: Sequence[str]) -> FoundProgram:
    """The program given or found by one of these names, the first that there is."""
    told = [os.environ.get(name.upper()) for name in names]
    named = given if given is not None else next(filter(None, told), "")
    if named:
        path = _runnable(os.fspath(named))
        if path is None:
            raise NoProgram(f"{os.fspath(named)!r} is no program that can be run")
        return _found(path)
    top = repository()
    for name in names:
        if top and _is_built(top, name):
            return FoundProgram(_built(top, name), True)
        installed = _runnable(name)
        if installed:
            return _found(installed)
    for name in names:
        if top and os.path.isfile(os.path.join(top, name)):
            return _found(os.path.join(top, name))
    raise NoProgram(
        "no program `propbench` was found: name it by $PROPBENCH, or build it with tools/build"
    )


def _runnable(named: str) -> str | None:
    """Where a program is that is named by its path, or lies on $PATH; None where it can't be
    run."""
    if os.path.dirname(named):
        return named if os.access(named, os.X_OK) and os.path.isfile(named) else None
    import shutil

    return shutil.which(named)


def _found(path: str) -> FoundProgram:
    """What is found at a path where a program is."""
    program = os.path.realpath(path)
    top, name = os.path.split(program)
    there = path if os.path.isabs(path) else os.path.join(os.getcwd(), path.removeprefix("./"))
    if name in (PLAIN, WIDE) and _is_repository(top):
        built = _is_built(top, name)
        return FoundProgram(_built(top, name) if built else there, built, not built)
    return FoundProgram(there, _is_proved(program))


def _built(top: str, name: str) -> str:
    """Where a repository's tools/build puts the program of a name."""
    return os.path.join(top, "crates", name, "out", name)


def _is_repository(top: str) -> bool:
    return all(os.path.isfile(os.path.join(top, name)) for name in ("crates.txt", PLAIN))


def _is_built(top: str, name: str) -> bool:
    """Whether a repository's tools/build has proved the program there."""
    return os.access(_built(top, name), os.X_OK)


def _is_proved(program: str) -> bool:
    """Whether it is a repository's built program, or the one of a package that tells so."""
    folder, name = os.path.split(program)
    top = os.path.normpath(os.path.join(folder, *[os.pardir] * 3))
    if program == _built(top, name) and _is_repository(top):
        return True
    with suppress(OSError):
        with open(os.path.join(folder, _CHECKSUMS), encoding="utf-8") as told:
            checksums = [line.partition(" ")[0] for line in told.read().splitlines()]
        import hashlib

        with open(program, "rb") as file:
            return hashlib.sha256(file.read()).hexdigest() in checksums
    return False
