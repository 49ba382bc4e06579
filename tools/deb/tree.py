"""What the package holds: each path in it, and the bytes that stand there."""
import glob
import hashlib
import json
import os
import subprocess
import tempfile
import tomllib
from dataclasses import dataclass

import making
import manual
from manual import TOP, document

PYTHON = f"{TOP}/python/src/propbench"
MODULES = "usr/lib/python3/dist-packages/propbench"
DOC = "usr/share/doc/propbench"
HTML = f"{DOC}/html"
# The checksums of the programs, where these are the proved ones. By them the Python package knows
# so, and `sha256sum --check` does.
CHECKSUM = "usr/share/propbench/proved.sha256"
VIM = "usr/share/vim/vimfiles"
COMPLETIONS = "usr/share/bash-completion/completions"
# What vim is told: which files are sessions, and how a line of them is made a note.
DETECTS = "autocmd BufRead,BufNewFile *.prop setfiletype propbench\n"
NOTES = "setlocal commentstring=#\\ %s\nlet b:undo_ftplugin = 'setlocal commentstring<'\n"
DESK = """\
#!/usr/bin/python3
# The command of the Python package propbench, which `python3 -m propbench` runs too.
import runpy

runpy.run_module("propbench", run_name="__main__", alter_sys=True)
"""
SOLVER = "usr/bin/fzn-propbench"
SOLVES = """\
#!/usr/bin/python3
# The solver that MiniZinc calls by propbench.msc.
import sys

from propbench.flatzinc.starting import main

sys.exit(main())
"""
# What MiniZinc calls where the package is of Python alone, which installs no manual either.
ELSEWHERE = "flatzinc/fzn-propbench"


@dataclass
class Build:
    """What a package is made from: the programs by name, whether they are known to be proved, what
    it is called, and the moment that it bears."""

    programs: dict[str, str]
    is_proved: bool
    version: str
    # Seconds since 1970.
    moment: int
    changes: str
    with_handbook: bool


def read(path: str) -> bytes:
    with open(path, "rb") as it:
        return it.read()


def tracked(folder: str, pattern: str) -> list[str]:
    """The files below a folder that fit a pattern, hidden and compiled ones left out, in order."""
    found = glob.glob(f"{TOP}/{folder}/{pattern}", recursive=True)
    return sorted(it for it in found if os.path.isfile(it) and "__pycache__" not in it)


def metadata() -> dict[str, bytes]:
    """What tells other Python programs of the package: its version, and where its command and its
    lexer are."""
    project = tomllib.loads(document("python/pyproject.toml"))["project"]
    about = {
        "Metadata-Version": "2.1",
        "Name": project["name"],
        "Version": project["version"],
        "Summary": project["description"],
        "Requires-Python": project["requires-python"],
    }
    offers = {"console_scripts": project["scripts"], **project["entry-points"]}
    lines = []
    for group, places in offers.items():
        lines += [f"[{group}]", *(f"{name} = {place}" for name, place in places.items()), ""]
    folder = f"{MODULES}-{project['version']}.dist-info"
    return {
        f"{folder}/METADATA": "".join(f"{name}: {said}\n" for name, said in about.items()).encode(),
        f"{folder}/entry_points.txt": "\n".join(lines).encode(),
    }


def of_python(build: Build) -> dict[str, bytes]:
    """The Python package, and its command propdesk."""
    files = {
        f"{MODULES}/{os.path.relpath(path, PYTHON)}": read(path)
        for path in tracked("python/src/propbench", "**/*")
        if not path.endswith(ELSEWHERE)
    }
    files |= metadata()
    files["usr/bin/propdesk"] = DESK.encode()
    page = manual.of_desk(build.version, build.moment)
    files["usr/share/man/man1/propdesk.1"] = page.encode()
    files[f"{COMPLETIONS}/propdesk"] = offers("propdesk")
    return files


def offers(name: str) -> bytes:
    """What has bash ask propdesk what may come next behind a command. Errors: OSError."""
    words = ["register-python-argcomplete", "--no-defaults", "--external", "propdesk", name]
    return manual.ran(words).encode()


def of_minizinc(build: Build) -> dict[str, bytes]:
    """The solver that MiniZinc calls, and what tells MiniZinc of it: as in the Python package, by
    where things are in this one."""
    told = json.loads(document("python/src/propbench/flatzinc/propbench.msc"))
    told |= {"executable": f"/{SOLVER}", "mznlib": f"/{MODULES}/flatzinc/mznlib"}
    page = manual.of_solver(build.version, build.moment)
    return {
        SOLVER: SOLVES.encode(),
        "usr/share/man/man1/fzn-propbench.1": page.encode(),
        "usr/share/minizinc/solvers/propbench.msc": f"{json.dumps(told, indent=2)}\n".encode(),
    }


def of_program(build: Build, name: str) -> dict[str, bytes]:
    """A program, its page, and what bash offers behind it."""
    page = manual.of_program(name, build.programs[name], build.version, build.moment)
    return {
        f"usr/bin/{name}": read(build.programs[name]),
        f"usr/share/man/man1/{name}.1": page.encode(),
        f"{COMPLETIONS}/{name}": offers(name),
    }


def of_proof(build: Build) -> dict[str, bytes]:
    """What tells that the programs are the proved ones."""
    if not build.is_proved:
        return {}
    sums = {name: hashlib.sha256(read(path)).hexdigest() for name, path in build.programs.items()}
    return {CHECKSUM: "".join(f"{it}  /usr/bin/{name}\n" for name, it in sums.items()).encode()}


def of_documents() -> dict[str, bytes]:
    """README.md, CHANGELOG.md, docs/, examples/, notebooks/ and what is said of the Python package,
    beside each other as they are in the repository."""
    paths = [f"{TOP}/README.md", f"{TOP}/CHANGELOG.md", *tracked("docs", "*.md")]
    paths += [f"{TOP}/python/README.md", f"{TOP}/python/REALS.md"]
    paths += [*tracked("examples", "**/*.*"), *tracked("notebooks", "*.*")]
    return {f"{DOC}/{os.path.relpath(path, TOP)}": read(path) for path in paths}


def of_handbook(build: Build) -> dict[str, bytes]:
    """The documents once more, as a handbook in HTML. Where what makes it is lacking, that is told.

    Errors: OSError with what Sphinx said."""
    if not build.with_handbook or making.told_lacking("tools/package"):
        return {}
    with tempfile.TemporaryDirectory(prefix="handbook-") as room:
        making.make(f"{room}/html", build.moment)
        found = glob.glob(f"{room}/html/**/*", recursive=True)
        return {
            f"{HTML}/{os.path.relpath(path, f'{room}/html')}": read(path)
            for path in found
            if os.path.isfile(path)
        }


def files(build: Build) -> dict[str, bytes]:
    """Each file of the package, by its path.

    Errors: OSError where a page of the manual or the handbook can't be made."""
    found = {
        f"{VIM}/syntax/propbench.vim": read(f"{TOP}/tools/deb/propbench.vim"),
        f"{VIM}/ftdetect/propbench.vim": DETECTS.encode(),
        f"{VIM}/ftplugin/propbench.vim": NOTES.encode(),
        **{path: it for name in build.programs for path, it in of_program(build, name).items()},
        **of_proof(build),
        **of_documents(),
        **of_handbook(build),
        **of_python(build),
        **of_minizinc(build),
    }
    return dict(sorted(found.items()))


def laid_out(found: dict[str, bytes], root: str, moment: int) -> None:
    """Writes the files below a folder, with the same times on every machine."""
    for path, text in found.items():
        file = f"{root}/{path}"
        os.makedirs(os.path.dirname(file), exist_ok=True)
        with open(file, "wb") as it:
            it.write(text)
        os.utime(file, (moment, moment))
