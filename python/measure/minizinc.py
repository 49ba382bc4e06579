#!/usr/bin/python3
"""Solves the models of python/tests/models by propbench and by Gecode, and says where they differ.

usage: python/measure/minizinc.py [--harder | --challenge [--size NAME]] [--write] [--most SECONDS]
           [MODEL ..]

For each model all solutions are counted, or the best one is found; printed are what both say, and
how long each took from reading FlatZinc to the end of its process, in seconds of a processor; what
was cut says that it takes longer. With --harder it is those of python/measure/models. With
--challenge it is those of its folder challenge, of which some solution is enough, by the data of a
size: Gecode ends the small ones at once, and needs 1 to 60 seconds for most of the middle ones
(challenges.py draws them). Gecode has its own constraints there, in all other models MiniZinc's.
With --write the FlatZinc and what Gecode says are written beside the models, which the tests
compare with. Needs `minizinc` and `fzn-gecode`, which Debian's minizinc brings.
"""

import argparse
import json
import re
import resource
import statistics
import subprocess
import sys
import tempfile
from collections.abc import Sequence
from dataclasses import dataclass
from pathlib import Path

PYTHON = Path(__file__).resolve().parents[1]
sys.path += [str(PYTHON / "src"), str(PYTHON / "tests")]

from propbench.flatzinc.compiling import CONFIGURATION  # noqa: E402
from solved_models import MODELS, answer, answers, printed_in  # noqa: E402

MEASURED = PYTHON / "measure/models"
# How a model is flattened here, by MiniZinc's own constraints, and by those that Gecode has.
OURS = ("--solver", str(CONFIGURATION))
STANDARD = ("-G", "std")
GECODE = ("--solver", "gecode", "-I", str(MEASURED / "gecode"))
# A run is cut after so many times its seconds by the clock, too.
BY_CLOCK = 10
# Gecode has no powers.
BY_HAND = {
    "powers": "".join(f"x = {x};\ny = {y};\n----------\n" for x, y in ((2, 2), (4, 1), (3, 3)))
}


def flattened(model: Path, solver: Sequence[str], data: Sequence[Path] = ()) -> str:
    """The model in FlatZinc, with the objective printed as `objective`."""
    with tempfile.TemporaryDirectory() as folder:
        flat = Path(folder, "model.fzn")
        words = ["minizinc", "-c", *solver, "--fzn", str(flat), "--ozn", f"{folder}/model.ozn"]
        files = map(str, (model, *data))
        subprocess.run([*words, *files], check=True, stderr=subprocess.DEVNULL)
        text = flat.read_text()
    found = re.search(r"(minimize|maximize) (\w+);", text)
    if found:
        text = re.sub(rf"\b{found[2]}\b", "objective", text)
        declared = re.compile(r"^(var [^:]*: objective *)((?:::[^=;]*)?)(=|;)", re.MULTILINE)
        text = declared.sub(r"\1:: output_var \2\3", text.replace(":: output_var", "::output_var"))
        text = re.sub(r"(objective :: output_var *)::output_var", r"\1", text)
    return text


def used() -> float:
    """The seconds of a processor that processes took which ended so far."""
    spent = resource.getrusage(resource.RUSAGE_CHILDREN)
    return spent.ru_utime + spent.ru_stime


def timed(words: list[str], text: str, most: int) -> tuple[str, float]:
    """What a solver prints of a model in FlatZinc, and the seconds of a processor that it took. It
    is ended after so many of each of its processes."""
    with tempfile.NamedTemporaryFile("w", suffix=".fzn") as file:
        file.write(text)
        file.flush()
        began = used()
        solver = subprocess.Popen(
            ["bash", "-c", f'ulimit -t {most}; exec "$@"', "bash", *words, file.name],
            text=True,
            stdout=subprocess.PIPE,
            stderr=subprocess.DEVNULL,
        )
        try:
            said, _ = solver.communicate(timeout=BY_CLOCK * most)
        except subprocess.TimeoutExpired:
            solver.terminate()
            said, _ = solver.communicate()
        return said, used() - began


@dataclass(frozen=True)
class Compared:
    """What Gecode says of a model, whether the answer here is the same, how many seconds each took,
    and whether each came to the end."""

    known: dict[str, object]
    is_same: bool
    took: tuple[float, float]
    ended: tuple[bool, bool]

    @property
    def times(self) -> float | None:
        """How many times as long it takes here as Gecode takes, or more where it was cut here, less
        where Gecode was; None where both were."""
        return self.took[1] / self.took[0] if any(self.ended) else None


def compare(model: Path, data: Sequence[Path], peer: Sequence[str], most: int) -> Compared:
    """Both answers to a model, printed with times. Of a model with data some solution is asked for,
    where it has no objective."""
    ours, theirs = flattened(model, OURS, data), flattened(model, peer, data)
    goal = re.findall(r"(satisfy|minimize|maximize)", theirs)[-1]
    flags = [] if data and goal == "satisfy" else ["-a"]
    said, took = timed(["fzn-gecode", *flags], theirs, most)
    said = BY_HAND.get(model.stem, said)
    own_said, own_took = timed([str(CONFIGURATION.parent / "fzn-propbench"), *flags], ours, most)
    # (what MiniZinc works out is printed by neither, and it may be more of it for one)
    shown = [each for each in printed_in(said) if each in printed_in(own_said)] if flags else []
    known, found = answer(goal, said, shown), answer(goal, own_said, shown)
    is_end = ["=====" in each or not flags and "-----" in each for each in (said, own_said)]
    is_same = found == known if all(is_end) else bool(data) or is_end[1]
    told = known.get("solutions", known.get("best"))
    times = [f"{it:.2f}" if end else f">{most}" for it, end in zip((took, own_took), is_end)]
    note = "" if is_same and all(is_end) else f" ({found})" if is_same else f" NOT {found}"
    print(f"{model.stem:16} {times[0]:>8} {times[1]:>10}  {told}{note}", flush=True)
    return Compared(known, is_same, (took, own_took), (is_end[0], is_end[1]))


def told_of_all(found: Sequence[Compared]) -> str:
    """How they compare at the median."""
    times = [it for each in found if (it := each.times) is not None]
    if not times:
        return "none came to the end"
    ahead = sum(it < 1 for it in times)
    median = statistics.median(times)
    return f"median of {len(times)}: {median:.1f} times Gecode's seconds; here faster: {ahead}"


def main() -> int:
    assert __doc__
    read = argparse.ArgumentParser(description=__doc__.split("\n", maxsplit=1)[0])
    read.add_argument("models", nargs="*", metavar="MODEL", help="names of models (all)")
    read.add_argument("--harder", action="store_true", help="models that take longer")
    read.add_argument("--challenge", action="store_true", help="models of a challenge's kind")
    read.add_argument("--size", default="middle", help="their data: small, middle (default), large")
    read.add_argument("--write", action="store_true", help="write FlatZinc and Gecode's answers")
    read.add_argument("--most", type=int, default=60, metavar="N", help="seconds of each (60)")
    options = read.parse_args()
    is_other = options.harder or options.challenge
    if is_other and options.write:
        read.error("what is written is of the models of the tests")
    known = answers() if (MODELS / "answers.json").exists() else {}
    found = []
    print(f"{'model':16} {'gecode':>8} {'propbench':>10}  answer")
    folder = MEASURED if is_other else MODELS
    folder = folder / "challenge" if options.challenge else folder
    for name in options.models or sorted(path.stem for path in folder.glob("*.mzn")):
        model = folder / f"{name}.mzn"
        if options.write:
            (MODELS / f"{name}.fzn").write_text(flattened(model, OURS))
        data = [folder / f"{name}.{options.size}.dzn"] if options.challenge else []
        peer = GECODE if options.challenge else STANDARD
        found.append(compare(model, data, peer, options.most))
        known[name] = found[-1].known
    if options.challenge:
        print(told_of_all(found))
    if options.write:
        text = json.dumps(dict(sorted(known.items())), indent=1)
        (MODELS / "answers.json").write_text(text + "\n")
    return 0 if all(each.is_same for each in found) else 1


if __name__ == "__main__":
    sys.exit(main())
