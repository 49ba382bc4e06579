"""Where the proved programs lie, and whether the sources are still those that were proved."""
import os
from collections.abc import Iterator

TOP = os.path.dirname(os.path.dirname(os.path.dirname(os.path.realpath(__file__))))
# The programs, in front the one that is meant where none is named.
PROGRAMS = ("propbench", "propwide")
# What of a crate a proof rests on. Tests are no part of the program.
PARTS = ("src", "specs", "proofs")


def built_path(of: str) -> str:
    """Where a program of this name is once it is proved and built."""
    return f"{TOP}/crates/{of}/out/{of}"


def files_in(folder: str) -> Iterator[os.DirEntry[str]]:
    """The files below a folder, but for those of tests."""
    of_tests = os.path.basename(folder) == "src"
    for entry in os.scandir(folder):
        if of_tests and entry.name.startswith("tests"):
            continue
        if entry.is_dir():
            yield from files_in(entry.path)
        else:
            yield entry


def crates_of(of: str) -> set[str]:
    """The program's crate and those that it stands on, of the kit's too."""
    with open(f"{TOP}/crates.txt", encoding="utf-8") as it:
        rows = (line.partition("#")[0].partition(":") for line in it)
        uses = {head.split()[0]: below.split() for head, found, below in rows if found}
    found, waiting = set(), [of]
    while waiting:
        crate = waiting.pop()
        if crate not in found:
            found.add(crate)
            waiting += uses.get(crate, ())
    return found


def sources(of: str, *parts: str) -> Iterator[os.DirEntry[str]]:
    """The files of these parts of each crate of a program, and the list of crates."""
    yield from (it for it in os.scandir(TOP) if it.name == "crates.txt")
    for crate in crates_of(of):
        for part in parts:
            if os.path.isdir(f"{TOP}/crates/{crate}/{part}"):
                yield from files_in(f"{TOP}/crates/{crate}/{part}")


def proved_program(of: str = PROGRAMS[0]) -> str | None:
    """The path of a proved program, or None where it is not built or a source is newer."""
    program = built_path(of)
    if not os.access(program, os.X_OK):
        return None
    built = os.stat(program).st_mtime_ns
    if any(it.stat().st_mtime_ns > built for it in sources(of, *PARTS)):
        return None
    return program
