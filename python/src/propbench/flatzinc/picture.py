"""A picture of conflicts: each constraint with the conflicts that it stands in, by Graphviz.

What the cheapest repair gives up is shaded.
"""

import shutil
import subprocess
import textwrap
from collections.abc import Mapping, Sequence
from pathlib import Path

from propbench.files import write_file
from propbench.questions.conflicts import Conflicts, Repairs
from propbench.showing import printable

# A line of a box has so many letters at the most, and a box so many lines.
_WIDE, _LINES = 34, 4


def dot_of(conflicts: Conflicts, repairs: Repairs, texts: Mapping[str, str]) -> str:
    """The picture as Graphviz reads it."""
    given_up = set(repairs[0]) if repairs else set()
    names = list(dict.fromkeys(name for conflict in conflicts for name in conflict))
    lines = ["graph conflicts {", "  rankdir=LR;", '  node [fontname="sans-serif", fontsize=11];']
    lines += ['  edge [color="#666666"];']
    for number, name in enumerate(names):
        fill = "#f4c7a1" if name in given_up else "#ffffff"
        label = _quoted([name, *_wrapped(texts.get(name, ""))])
        lines.append(f'  p{number} [shape=box, style=filled, fillcolor="{fill}", label={label}];')
    for number, conflict in enumerate(conflicts, 1):
        lines.append(f'  c{number} [shape=ellipse, label="conflict {number}"];')
        lines += [f"  p{names.index(name)} -- c{number};" for name in conflict]
    return "\n".join([*lines, "}", ""])


def draw(path: Path, dot: str) -> None:
    """Draws the picture into a file, by what its name ends with: `.dot` is the text itself. Raises
    ValueError where Graphviz isn't there or can't, and OSError."""
    if path.suffix == ".dot":
        write_file(path, dot)
        return
    found = drawn(dot, path.suffix[1:])
    if found is None:
        raise ValueError(
            "a picture needs Graphviz (apt-get install graphviz): without it ask for a .dot"
        )
    write_file(path, found)


def drawn(dot: str, sort: str) -> bytes | None:
    """A picture of this sort, None where Graphviz isn't there. Raises ValueError where it can't."""
    program = shutil.which("dot")
    if program is None:
        return None
    ran = subprocess.run(
        [program, f"-T{sort}"], input=dot.encode("utf-8", "backslashreplace"), capture_output=True
    )
    if ran.returncode:
        raise ValueError(
            f"Graphviz can't draw .{sort}: {ran.stderr.decode(errors='replace').strip()}"
        )
    return ran.stdout


def _wrapped(text: str) -> list[str]:
    lines = textwrap.wrap(text, _WIDE)
    return lines if len(lines) <= _LINES else [*lines[: _LINES - 1], f"{lines[_LINES - 1]} .."]


def _quoted(lines: Sequence[str]) -> str:
    shown = [printable(line) for line in lines if line]
    escaped = [line.replace("\\", "\\\\").replace('"', '\\"') for line in shown]
    return '"' + "\\n".join(escaped) + '"'
