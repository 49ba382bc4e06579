"""MiniZinc's own test suite: its tests are read, run by a solver, and what that says is judged.

What a test expects is told in the comment that its model begins with. Needs `minizinc` with Gecode,
and python3-yaml.
"""

import json
import subprocess
import tempfile
import time
from collections.abc import Iterable, Iterator
from dataclasses import dataclass, field, replace
from pathlib import Path
from typing import Any

import yaml

CUT = ("TIMEOUT", "UNKNOWN")
SATISFIED = ("SATISFIED", "ALL_SOLUTIONS", "OPTIMAL_SOLUTION")
# Debian's Gecode, by MiniZinc's own library: its own doesn't fit this MiniZinc.
GECODE = {
    "id": "gecode.std",
    "name": "Gecode",
    "version": "6.2",
    "executable": "/usr/bin/fzn-gecode",
    "tags": ["cp", "int", "float", "set"],
    "stdFlags": ["-a", "-n"],
    "supportsMzn": False,
    "supportsFzn": True,
    "needsSolns2Out": True,
}
# What a test may come to that is right.
RIGHT = ("passed", "agrees with Gecode", "error as expected", "beyond Gecode's numbers")
# Checks of a solution by Gecode take so many seconds at the most, and an end that was asked for.
CHECKING, ENDING = 20.0, 5.0


@dataclass(frozen=True)
class Tagged:
    """What stands behind a tag of the suite, as `!Solution`."""

    tag: str
    value: Any


class Loader(yaml.SafeLoader):
    """Reads the suite's tags as `Tagged`."""


def tagged(loader: Loader, suffix: str, node: yaml.Node) -> Tagged:
    """What stands behind a tag."""
    if isinstance(node, yaml.MappingNode):
        return Tagged(suffix, loader.construct_mapping(node, deep=True))
    if isinstance(node, yaml.SequenceNode):
        return Tagged(suffix, loader.construct_sequence(node, deep=True))
    assert isinstance(node, yaml.ScalarNode)
    return Tagged(suffix, loader.construct_scalar(node))


Loader.add_multi_constructor("!", tagged)  # type: ignore[no-untyped-call]


@dataclass
class SuiteTest:
    """A test of the suite: a model, its data and options, and the results that are right. It is
    run in the folder above the suite, where its options name files from."""

    model: Path
    data: list[Path]
    options: dict[str, Any]
    expected: list[Tagged]
    solvers: list[str] = field(default_factory=list)
    folder: Path | None = None

    @property
    def wants_all(self) -> bool:
        """Whether all solutions are asked for."""
        return bool(self.options.get("all_solutions") or self.options.get("-a"))


@dataclass(frozen=True)
class Ran:
    """What a solver has said of a test."""

    solutions: list[dict[str, Any]]
    status: str
    error: str
    seconds: float


def suite_tests(folder: Path) -> Iterator[SuiteTest]:
    """The tests that are solved, in order."""
    for model in sorted(folder.rglob("*.mzn")):
        text = model.read_text(encoding="utf-8", errors="replace")
        if not text.startswith("/***"):
            continue
        for each in yaml.load_all(text[4 : text.index("***/")], Loader):
            if isinstance(each, Tagged) and each.tag == "Test":
                told = each.value if isinstance(each.value, dict) else {}
                if told.get("type", "solve") == "solve":
                    yield replace(told_test(model, told), folder=folder.parent)


def told_test(model: Path, told: dict[str, Any]) -> SuiteTest:
    """The test that a comment tells of."""
    expected = told.get("expected", [])
    several = expected if isinstance(expected, list) else [expected]
    data = [model.parent / each for each in told.get("extra_files", [])]
    solvers = told.get("solvers", ["gecode", "cbc", "chuffed"])
    return SuiteTest(model, data, told.get("options", {}), several, solvers)


def words_of(options: dict[str, Any]) -> list[str]:
    """The options of a test as words."""
    words = []
    for name, value in options.items():
        name = {"all_solutions": "-a", "nr_solutions": "-n", "optimise": "-O"}.get(name, name)
        name = name if name.startswith("-") else f"--{name.replace('_', '-')}"
        if value is True:
            words.append(name)
        elif value is not False and value is not None:
            words += [f"-O{value}"] if name == "-O" else [name, str(value)]
    return words


def words_to_run(test: SuiteTest, solver: str) -> list[str]:
    """The command that runs a test by the solver of this file."""
    words = ["minizinc", "--solver", solver, "--output-mode", "json", "--output-objective"]
    words += ["--soln-sep", "%%next", *words_of(test.options), str(test.model)]
    for each in test.data:
        words += ["--param-file", str(each)] if each.suffix == ".mpc" else [str(each)]
    return words


def run(test: SuiteTest, solver: str, seconds: float) -> Ran:
    """What a solver says of a test in so many seconds."""
    began = time.monotonic()
    with subprocess.Popen(
        words_to_run(test, solver),
        text=True,
        errors="replace",
        stdin=subprocess.DEVNULL,
        stdout=subprocess.PIPE,
        stderr=subprocess.PIPE,
        cwd=test.folder,
    ) as running:
        try:
            output, error = running.communicate(timeout=seconds)
        except subprocess.TimeoutExpired:
            end(running)
            return Ran([], "TIMEOUT", "", seconds)
    took = time.monotonic() - began
    solutions, status = read_output(output, running.returncode)
    return Ran(solutions, status, error.strip(), took)


def end(running: subprocess.Popen[str]) -> None:
    """Ends MiniZinc, which ends its solver then; killed, it leaves that behind."""
    running.terminate()
    try:
        running.communicate(timeout=ENDING)
    except subprocess.TimeoutExpired:
        running.kill()


def read_output(output: str, returned: int) -> tuple[list[dict[str, Any]], str]:
    """The solutions that MiniZinc prints, and the status that it ends with."""
    status = next((s for s in ("UNSATISFIABLE", "UNKNOWN", "ERROR") if f"====={s}" in output), "")
    parts = output.split("%%next")
    solutions = [found for part in parts[:-1] if (found := json_in(part)) is not None]
    if returned and not solutions and not status:
        status = "ERROR"
    if solutions:
        status = "COMPLETE" if "==========" in output else "SATISFIED"
    return solutions, status or "NONE"


def json_in(text: str) -> dict[str, Any] | None:
    """The solution that a text holds."""
    begin, end = text.find("{"), text.rfind("}")
    try:
        found = json.loads(text[begin : end + 1])
    except ValueError:
        return None
    return found if isinstance(found, dict) else None


def plain(value: Any) -> Any:
    """A value of the suite or of a solution, so that equal ones are the same."""
    if isinstance(value, Tagged):
        if value.tag == "Range":
            low, _, high = str(value.value).partition("..")
            return ("set", tuple(range(int(low), int(high) + 1)))
        if value.tag == "Approx":
            return float(value.value)
        if value.tag == "set":
            return plain(set(value.value))
        if value.tag == "Unordered":
            return ("unordered", tuple(sorted(map(repr, map(plain, value.value)))))
        return plain(value.value)
    if isinstance(value, dict) and set(value) == {"set"}:
        return ("set", tuple(sorted(elements_of(value["set"]), key=repr)))
    if isinstance(value, dict) and set(value) == {"e"}:
        return str(value["e"])
    if isinstance(value, set):
        return ("set", tuple(sorted(map(plain, value), key=repr)))
    if isinstance(value, list):
        return [plain(each) for each in value]
    return value


def elements_of(parts: Iterable[Any]) -> Iterator[Any]:
    """The elements of a set in JSON: one by one, or from one to another."""
    for part in parts:
        if isinstance(part, list) and all(isinstance(each, int) for each in part):
            yield from range(part[0], part[1] + 1)
        else:
            yield plain(part)


def is_same(wanted: Any, found: Any) -> bool:
    """Whether a value is what is wanted; numbers that are not whole nearly so."""
    if isinstance(wanted, float) and isinstance(found, (int, float)):
        return abs(wanted - found) <= 1e-4 * max(1.0, abs(wanted))
    if isinstance(wanted, list) and isinstance(found, list):
        return len(wanted) == len(found) and all(map(is_same, wanted, found))
    if isinstance(wanted, tuple) and wanted[0] == "unordered" and isinstance(found, list):
        return bool(wanted[1] == tuple(sorted(map(repr, found))))
    if isinstance(wanted, tuple) and isinstance(found, tuple) and "set" in (wanted[0], found[0]):
        return sorted(wanted[1], key=repr) == sorted(found[1], key=repr)
    return bool(wanted == found)


def meets(wanted: Any, found: dict[str, Any]) -> bool:
    """Whether a solution is the wanted one, as far as that tells."""
    if isinstance(wanted, Tagged) and wanted.tag == "SolutionSet":
        return any(meets(each, found) for each in wanted.value)
    told = wanted.value if isinstance(wanted, Tagged) else wanted
    if not isinstance(told, dict):
        return not told
    known = {"objective": found.get("_objective"), **found}
    return all(
        name in known and is_same(plain(value), plain(known[name]))
        for name, value in told.items()
        if name != "_output_item"
    )


def are_those(wanted: list[Any], found: list[dict[str, Any]]) -> bool:
    """Whether the solutions are those that are wanted, in any order."""
    left = list(wanted)
    for each in found:
        match = next((one for one in left if meets(one, each)), None)
        if match is None:
            return False
        left.remove(match)
    return not left


def is_expected(test: SuiteTest, ran: Ran, wanted: Tagged) -> bool:
    """Whether this is the result that is wanted."""
    if wanted.tag == "Error":
        return ran.status == "ERROR"
    if wanted.tag != "Result":
        return False
    told = wanted.value if isinstance(wanted.value, dict) else {}
    status, solution = told.get("status"), told.get("solution")
    if status is not None and (status in SATISFIED) != bool(ran.solutions):
        return False
    if status == "UNSATISFIABLE" and ran.status != "UNSATISFIABLE":
        return False
    if solution is None:
        return bool(ran.solutions) or ran.status in ("UNSATISFIABLE", "NONE")
    if isinstance(solution, list):
        return are_those(solution, ran.solutions)
    if isinstance(solution, Tagged) and solution.tag == "SolutionSet" and test.wants_all:
        return bool(ran.solutions) and all(meets(solution, each) for each in ran.solutions)
    return bool(ran.solutions) and meets(solution, ran.solutions[-1])


def agrees(test: SuiteTest, ran: Ran, gecode: str) -> bool | None:
    """Whether Gecode says that this is right; None where it has no time to say so."""
    theirs = run(test, gecode, CHECKING)
    if not ran.solutions:
        return ran.status == theirs.status and not theirs.solutions
    found = {k: v for k, v in ran.solutions[-1].items() if not k.startswith("_")}
    if not found:
        return bool(theirs.solutions)
    best = ran.solutions[-1].get("_objective")
    if best is not None and theirs.solutions and theirs.status == "COMPLETE":
        if not is_same(theirs.solutions[-1].get("_objective"), best):
            return False
    with tempfile.NamedTemporaryFile("w", suffix=".json") as file:
        json.dump(found, file)
        file.flush()
        # (as data, the values of a solution have to be one)
        given = replace(test, data=[*test.data, Path(file.name)], options={})
        checked = run(given, gecode, CHECKING)
    if checked.solutions:
        return True
    is_assigned = "multiple assignment" in checked.error or "type error" in checked.error
    asked = theirs if is_assigned else checked
    if not asked.solutions and asked.status in CUT:
        return None
    return is_assigned and bool(theirs.solutions) or is_accepted(test, found, gecode)


def is_accepted(test: SuiteTest, found: dict[str, Any], gecode: str) -> bool:
    """Whether Gecode accepts a solution that is stated by constraints. (Data change what a model
    is that asks for the ends of its variables.)"""
    text = stated(found)
    if text is None:
        return False
    with tempfile.NamedTemporaryFile("w", suffix=".mzn") as file:
        file.write(text)
        file.flush()
        given = replace(test, data=[*test.data, Path(file.name)], options={})
        return bool(run(given, gecode, CHECKING).solutions)


def stated(found: dict[str, Any]) -> str | None:
    """The constraints that say a solution; None where it is not of numbers and sets alone."""
    lines = []
    for name, value in found.items():
        if isinstance(value, dict) and set(value) == {"set"}:
            each = "{" + ", ".join(map(str, elements_of(value["set"]))) + "}"
            lines.append(f"constraint {name} subset {each} /\\ {each} subset {name};")
        elif isinstance(value, int):
            lines.append(f"constraint {name} = {str(value).lower()};")
        else:
            return None
    return "\n".join(lines)


def judged(test: SuiteTest, ran: Ran, gecode: str) -> str:
    """What became of a test."""
    if any(is_expected(test, ran, each) for each in test.expected):
        return "error as expected" if ran.status == "ERROR" else "passed"
    if ran.status in CUT:
        return "out of time"
    if ran.status == "ERROR":
        is_ours = "fzn-propbench" in ran.error and "Traceback" not in ran.error
        return "refused" if is_ours else "failed"
    says = agrees(test, ran, gecode)
    if says is not False:
        return "agrees with Gecode" if says else "not judged"
    return "beyond Gecode's numbers" if is_beyond(ran.solutions) else "WRONG"


def is_beyond(value: Any) -> bool:
    """Whether there is a number that Gecode has no room for."""
    if isinstance(value, dict):
        return any(map(is_beyond, value.values()))
    if isinstance(value, list):
        return any(map(is_beyond, value))
    return isinstance(value, int) and abs(value) >= 2**31 - 2
