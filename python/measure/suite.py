#!/usr/bin/python3
"""Runs MiniZinc's own test suite over propbench, and says what passed, was refused, or ran out of
time.

usage: python/measure/suite.py SPEC [--tenth] [--again FILE] [--seconds N] [--solver FILE] [--list
FILE]

SPEC is the folder tests/spec of MiniZinc's sources (`apt-get source minizinc`). A test passes where
what is found is one of the results that it expects. Where it is another, Gecode is asked whether
that is a solution too, and as good a one: then it agrees. Else it is wrong, and the exit status 1.
With --tenth every tenth file is run; with `--solver gecode` it is Gecode's turn. Needs `minizinc`
with Gecode, and python3-yaml.
"""

import argparse
import json
import sys
import tempfile
from collections import Counter
from pathlib import Path

PYTHON = Path(__file__).resolve().parents[1]
sys.path += [str(PYTHON / "src"), str(PYTHON / "tests")]

from propbench.flatzinc.compiling import CONFIGURATION  # noqa: E402
from solved_suite import GECODE, RIGHT, judged, run, suite_tests  # noqa: E402


def asked() -> argparse.Namespace:
    """The options of the command line, with the `tests` to run, in order."""
    assert __doc__
    read = argparse.ArgumentParser(description=__doc__.split("\n", maxsplit=1)[0])
    read.add_argument("spec", type=Path, metavar="SPEC", help="tests/spec of MiniZinc's sources")
    read.add_argument("--tenth", action="store_true", help="every tenth file alone")
    read.add_argument("--seconds", type=float, default=40, metavar="N", help="for each test (40)")
    read.add_argument(
        "--solver", default=CONFIGURATION, type=Path, help="the solver's file, or `gecode`"
    )
    read.add_argument("--list", type=Path, metavar="FILE", help="write what became of each test")
    read.add_argument("--again", type=Path, metavar="FILE", help="what did not pass in such a list")
    read.add_argument("--only", default="", metavar="TEXT", help="models whose path has this text")
    options = read.parse_args()
    options.spec = options.spec.resolve()
    tests = list(suite_tests(options.spec))
    if not tests:
        read.error(f"no tests are in {options.spec}")
    models = sorted({test.model for test in tests})[:: 10 if options.tenth else 1]
    if options.again:
        lines = [line.split("\t") for line in options.again.read_text().splitlines()]
        again = {options.spec / line[2] for line in lines if line[0] not in RIGHT}
        models = [model for model in models if model in again]
    named = [model for model in models if options.only in str(model)]
    options.tests = [test for test in tests if test.model in named]
    return options


def main() -> int:
    options, counts = asked(), Counter[str]()
    with (
        open(options.list or "/dev/null", "w", encoding="utf-8") as file,
        tempfile.NamedTemporaryFile("w", suffix=".msc") as gecode,
    ):
        json.dump(GECODE, gecode)
        gecode.flush()
        is_gecode = str(options.solver) == "gecode"
        solver = gecode.name if is_gecode else str(options.solver.resolve())
        for test in options.tests:
            ran = run(test, solver, options.seconds)
            what = judged(test, ran, gecode.name)
            counts[what] += 1
            name = test.model.relative_to(options.spec)
            said = ran.error.replace("\n", " ")[-160:] if what in ("refused", "failed") else ""
            print(f"{what}\t{ran.seconds:.1f}\t{name}\t{said}", file=file, flush=True)
            if what in ("failed", "WRONG"):
                print(f"{what}: {name} {said}")
    print(", ".join(f"{count} {what}" for what, count in counts.most_common()))
    return 1 if counts["WRONG"] else 0


if __name__ == "__main__":
    sys.exit(main())
