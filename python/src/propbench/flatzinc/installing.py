"""`propdesk minizinc`: MiniZinc told of the solver, by a file in the user's folder for solvers."""

import json
import os
import shutil
import subprocess
from pathlib import Path

from propbench.files import write_file
from propbench.flatzinc.compiling import CONFIGURATION
from propbench.showing import printable

# What the file is called, and where the user's folder is unless MiniZinc says another.
FILE = "propbench.msc"
_FOLDER = Path(".minizinc", "solvers")


def solver_file() -> Path:
    """The file by which MiniZinc knows of the solver, for this user."""
    return _folder() / FILE


def installed() -> bool:
    """Whether that file is there, and names the solver of this package."""
    told = _told(solver_file())
    return told is not None and told == _configuration()


def install() -> Path:
    """Writes the file, and gives its path. Raises ValueError where another solver's is there, and
    OSError."""
    path = solver_file()
    _check_own(path)
    path.parent.mkdir(parents=True, exist_ok=True)
    write_file(path, f"{json.dumps(_configuration(), indent=2)}\n")
    return path


def remove() -> Path:
    """Removes the file, and gives its path. Raises ValueError where another solver's is there, or
    none, and OSError."""
    path = solver_file()
    if not path.exists():
        raise ValueError(f"there is no {printable(str(path))}")
    _check_own(path)
    path.unlink()
    return path


def _configuration() -> dict[str, object]:
    """What the file says: the package's own, with paths from the root on."""
    own: dict[str, object] = json.loads(CONFIGURATION.read_text(encoding="utf-8"))
    return own | {"mznlib": str(CONFIGURATION.parent / "mznlib"), "executable": _executable()}


def _executable() -> str:
    """The solver: the package's own file, where it can be run as it is, else the command that came
    with the package. Raises ValueError where there is neither."""
    own = CONFIGURATION.parent / "fzn-propbench"
    found = str(own) if os.access(own, os.X_OK) else shutil.which("fzn-propbench")
    if found is None:
        raise ValueError(
            f"{printable(str(own))} can't be run, and `fzn-propbench` isn't on the path"
        )
    return found


def _check_own(path: Path) -> None:
    told = _told(path)
    if path.exists() and (told is None or told.get("id") != _configuration()["id"]):
        raise ValueError(f"{printable(str(path))} is another solver's: it is left as it is")


def _told(path: Path) -> dict[str, object] | None:
    """What a solver's file says, None where it can't be read."""
    try:
        told = json.loads(path.read_text(encoding="utf-8"))
    except (OSError, ValueError):
        return None
    return told if isinstance(told, dict) else None


def _folder() -> Path:
    """The user's folder for solvers, as MiniZinc names it where it is there."""
    program = shutil.which("minizinc")
    if program is not None:
        ran = subprocess.run([program, "--config-dirs"], text=True, capture_output=True)
        try:
            return Path(json.loads(ran.stdout)["userSolverConfigDir"])
        except (ValueError, KeyError, TypeError):
            pass
    return Path.home() / _FOLDER
