"""Layers: each module imports from its own layer and those below alone, and none goes in a circle.

From the ground up: the session with all that it needs; what readings say; the model of a workbench;
questions of many asks; quantities, projects and the plain workbench; the workbench; front ends.
"""

import ast
from collections.abc import Iterator
from graphlib import CycleError, TopologicalSorter
from pathlib import Path

import pytest

import propbench

SOURCES = Path(propbench.__file__).resolve().parents[1]
SESSION, READINGS, MODEL, QUESTIONS, BENCHES, WORKBENCH, FRONT = range(7)
LAYERS = {
    "model": MODEL,
    "questions": QUESTIONS,
    **dict.fromkeys(["laboratory", "measuring", "plain", "planning"], BENCHES),
    "workbench": WORKBENCH,
    **dict.fromkeys(["flatzinc", "notebook", "page", "pictures", "watching"], FRONT),
    **dict.fromkeys(["__main__", "checking", "desk", "errors", "helping"], FRONT),
    **dict.fromkeys(["shell", "terminal"], FRONT),
}
# Modules of another layer than their package: what readings say, and commands of the desk.
_SAID = ["exact", "units", "amounts", "angles", "means", "tolerances", "readings"]
_COMMANDS = ["laboratory.command", "planning.command", "planning.planner"]
_COMMANDS += ["planning.open_plan", "planning.seen"]
BY_THEMSELVES = {
    **dict.fromkeys([f"propbench.measuring.{name}" for name in _SAID], READINGS),
    **dict.fromkeys([f"propbench.{name}" for name in _COMMANDS], FRONT),
}
# What a workbench shows is imported once it is asked for, and looks at the workbench.
VIEWS = {"propbench.page", "propbench.pictures", "propbench.watching.of_workbench"}


def named(path: Path) -> str:
    """The name of a module."""
    return ".".join(path.relative_to(SOURCES).with_suffix("").parts).removesuffix(".__init__")


MODULES = {named(path): path for path in sorted(SOURCES.glob("propbench/**/*.py"))}


def layer_of(module: str) -> int:
    """The layer of a module. (Those that stand by themselves are the session's.)"""
    if module in BY_THEMSELVES:
        return BY_THEMSELVES[module]
    parts = module.split(".")[1:]
    return LAYERS.get(parts[0], SESSION) if parts else FRONT


def is_for_types(node: ast.AST) -> bool:
    """Whether what stands within is seen by type checkers alone."""
    return isinstance(node, ast.If) and ast.unparse(node.test) == "TYPE_CHECKING"


def imports(node: ast.AST, is_within: bool = False) -> Iterator[tuple[str, bool]]:
    """The modules of the package that are imported, and whether that is within a function."""
    for each in ast.iter_child_nodes(node):
        if isinstance(each, ast.ImportFrom) and (each.module or "").startswith("propbench."):
            for name in each.names:
                full = f"{each.module}.{name.name}"
                yield (full if full in MODULES else str(each.module)), is_within
        if is_for_types(each):
            each = ast.Module([it for it in each.orelse], [])  # type: ignore[attr-defined]
        yield from imports(each, is_within or isinstance(each, ast.FunctionDef))


IMPORTS = {name: list(imports(ast.parse(MODULES[name].read_text("utf-8")))) for name in MODULES}


@pytest.mark.parametrize("module", MODULES)
def test_imports_go_downwards(module: str) -> None:
    upwards = {name for name, _ in IMPORTS[module] if layer_of(name) > layer_of(module)}
    assert upwards - (VIEWS if module == "propbench.plain" else set()) == set()


def test_nothing_is_imported_in_a_circle() -> None:
    graph = {name: {it for it, is_within in IMPORTS[name] if not is_within} for name in MODULES}
    assert sum(map(len, graph.values())) > 500
    try:
        TopologicalSorter(graph).prepare()
    except CycleError as circle:
        pytest.fail(" -> ".join(circle.args[1]))


def test_circles_and_steps_upwards_are_seen() -> None:
    text = "from propbench.page import serve\nif TYPE_CHECKING:\n    import propbench.desk\n"
    within = "def f():\n    from propbench.model.nodes import Node\n"
    assert list(imports(ast.parse(text + within))) == [
        ("propbench.page", False),
        ("propbench.model.nodes", True),
    ]
    assert (
        layer_of("propbench.page") > layer_of("propbench.model.nodes") > layer_of("propbench.words")
    )
    assert layer_of("propbench.measuring.units") < layer_of("propbench.model.nodes")
