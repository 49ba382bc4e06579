"""MiniZinc run: a model with marks at its constraints, and data, made into FlatZinc."""

import re
import shutil
import subprocess
import tempfile
from collections.abc import Iterable, Sequence
from dataclasses import dataclass, field, replace
from pathlib import Path

from propbench.finding import NoProgram
from propbench.flatzinc.grammar import read
from propbench.flatzinc.marking import MarkedModel, label_of, marked, relaxed
from propbench.flatzinc.terms import BLAMED, Flat, Text

CONFIGURATION = Path(__file__).parent / "propbench.msc"


class NoMiniZinc(ValueError):
    """MiniZinc refuses the model."""


@dataclass(frozen=True)
class Compiled:
    """A model in FlatZinc whose constraints have labels, how each of these is written, and what it
    costs to give one up, where that isn't 1; the model's text, and the marks of the labels in it.
    """

    flat: Flat
    texts: dict[str, str]
    weights: dict[str, float] = field(default_factory=dict)
    source: str = ""
    model: MarkedModel = MarkedModel("", ())
    marks: dict[str, str] = field(default_factory=dict)

    def without(self, labels: Iterable[str]) -> str:
        """The model's text without the constraints of these labels."""
        return relaxed(self.source, self.model, [self.marks[each] for each in labels])


def compiled(model: Path, data: Sequence[Path]) -> Compiled:
    """The model made into FlatZinc; a file `.fzn` is taken as it is. Raises NoMiniZinc,
    NotSupported, OSError, and NoProgram where MiniZinc isn't there."""
    text = model.read_text(encoding="utf-8")
    if model.suffix == ".fzn":
        return Compiled(read(text), {})
    with_marks = marked(text)
    flat = read(_flattened(model, with_marks.text, data))
    made = Compiled(flat, {}, {}, text, with_marks)
    for place, each in enumerate(flat.constraints):
        if each.name == BLAMED and isinstance(each.args[1], Text):
            mark = each.args[1].text
            label, written = label_of(with_marks, mark)
            made.texts[label], made.marks[label] = written, mark
            if with_marks.of(mark).weight != 1:
                made.weights[label] = with_marks.of(mark).weight
            flat.constraints[place] = replace(each, args=(each.args[0], Text(label)))
    return made


def _flattened(model: Path, text: str, data: Sequence[Path]) -> str:
    """What MiniZinc makes of a model of this text, which lies where the model does."""
    program = shutil.which("minizinc")
    if program is None:
        raise NoProgram(
            "models need MiniZinc (apt-get install minizinc): `minizinc` is not on the path"
        )
    with tempfile.TemporaryDirectory() as folder:
        made, flat = Path(folder, model.name), Path(folder, "model.fzn")
        made.write_text(text, encoding="utf-8")
        words = [program, "-c", "--solver", str(CONFIGURATION), "-I", str(model.parent.resolve())]
        words += ["--fzn", str(flat), "--ozn", str(Path(folder, "model.ozn")), str(made)]
        ran = subprocess.run([*words, *map(str, data)], text=True, capture_output=True)
        if ran.returncode or not flat.exists():
            said = _said(ran).replace(str(made), str(model))
            # (as it says of the model itself, where that is wrong without any marks)
            alone = subprocess.run(
                [*words[:-1], str(model), *map(str, data)], text=True, capture_output=True
            )
            told = _said(alone) if alone.returncode else _without_marks(said, str(model))
            raise NoMiniZinc(f"MiniZinc says of {model}:\n{told}")
        return flat.read_text(encoding="utf-8")


def _said(ran: subprocess.CompletedProcess[str]) -> str:
    return (ran.stderr or ran.stdout).strip()


def _without_marks(said: str, model: str) -> str:
    """What MiniZinc says of a model with marks, as if it had none: columns are others there."""
    said = re.sub(rf"\b{BLAMED}\((.*?), \"\d+\|[^\"]*\"\)", r"\1", said)
    lines = [line for line in said.split("\n") if "propbench_" not in line and line.strip(" ^")]
    return re.sub(rf"({re.escape(model)}:\d+)\.[-.\d]+", r"\1", "\n".join(lines))
