"""How the package is kept: a public name stands for one thing, functions and lines are short."""

import ast
import re
from collections import defaultdict
from collections.abc import Iterator
from pathlib import Path

import propbench
from conftest import REPOSITORY

SOURCES = Path(propbench.__file__).resolve().parent
Function = ast.FunctionDef | ast.AsyncFunctionDef
_FUNCTIONS = (ast.FunctionDef, ast.AsyncFunctionDef)
TREES = {
    path.relative_to(SOURCES).as_posix(): ast.parse(path.read_text("utf-8"))
    for path in sorted(SOURCES.rglob("*.py"))
}
# Classes and types that are defined in two modules and more: what is left for a cell, which the
# checker says anew, since it reads no other module. Nothing is to be added here.
TWICE = {"Room"}
MOST_LINES, MOST_ARGUMENTS, COLUMNS = 40, 5, 100
# Functions with more lines or arguments. Nothing is to be added here. Of the package these are a
# call that is promised, what an answer holds, and a claim of certificates, whose file names them.
LONG = set(
    """
    python/tests/test_desk.py:test_a_conversation_at_a_terminal
    python/tests/test_page_server.py:test_the_desk_serves_a_plan
    python/tests/test_plan_view.py:test_a_plan_is_saved_as_tables
    python/tests/test_plan_view.py:walk
    """.split()
)
MANY_ARGUMENTS = set(
    """
    python/src/propbench/model/answers.py:Answer.__init__
    python/src/propbench/planning/project.py:Project.lag
    python/src/propbench/planning/project.py:Project.task
    python/src/propbench/questions/checker.py:Checker.conflicts
    python/tests/judging.py:Judge._conflicts
    """.split()
)


def types_of(tree: ast.Module) -> Iterator[str]:
    """The public classes and names of types that a module defines."""
    for node in tree.body:
        if isinstance(node, ast.ClassDef):
            yield node.name
        elif isinstance(node, ast.Assign):
            yield from (it.id for it in node.targets if isinstance(it, ast.Name))


def functions_of(node: ast.AST, within: str = "") -> Iterator[tuple[str, Function]]:
    """All functions below a node, by their names behind that of their class."""
    for each in ast.iter_child_nodes(node):
        inside = within
        if isinstance(each, ast.ClassDef):
            inside = f"{within}{each.name}."
        elif isinstance(each, _FUNCTIONS):
            yield f"{within}{each.name}", each
        yield from functions_of(each, inside)


def python_files() -> Iterator[Path]:
    """All that is written in Python here: modules, tests, examples, and the tools."""
    for folder in ("python", "tests", "tools", "examples", "notebooks"):
        yield from sorted((REPOSITORY / folder).rglob("*.py"))
    for tool in sorted((REPOSITORY / "tools").iterdir()):
        if tool.is_file() and tool.read_text("utf-8").startswith("#!/usr/bin/python3"):
            yield tool


FILES = list(python_files())
# All functions, with where they stand.
FUNCTIONS = [
    (f"{file.relative_to(REPOSITORY)}:{name}", function)
    for file in FILES
    for name, function in functions_of(ast.parse(file.read_text("utf-8")))
]


def lines_of(function: Function) -> int:
    """How many lines a function has, its manual not counted."""
    whole = function.end_lineno or 0
    manual = function.body[0] if ast.get_docstring(function, clean=False) else None
    said = (manual.end_lineno or 0) - manual.lineno + 1 if manual else 0
    return whole - function.lineno + 1 - said


def arguments_of(function: Function) -> int:
    """How many arguments a function takes, the object itself not counted."""
    said = function.args
    named = [each.arg for each in (*said.posonlyargs, *said.args, *said.kwonlyargs)]
    gathered = [each for each in (said.vararg, said.kwarg) if each]
    return len([name for name in named if name not in ("self", "cls")]) + len(gathered)


def test_lines_are_short() -> None:
    assert len(FILES) > 300
    long = [
        f"{file.relative_to(REPOSITORY)}:{number}"
        for file in FILES
        for number, line in enumerate(file.read_text("utf-8").split("\n"), 1)
        if len(line) > COLUMNS
    ]
    assert long == []


def test_a_name_stands_for_one_thing() -> None:
    homes = defaultdict(set)
    for file, tree in TREES.items():
        for name in types_of(tree):
            # (constants in capitals belong to their modules)
            if name[0].isalpha() and not name.isupper() and name[0].isupper():
                homes[name].add(file)
    twice = {name: files for name, files in homes.items() if len(files) > 1}
    assert set(twice) == TWICE, {name: twice.get(name) for name in set(twice) ^ TWICE}


def unused_of(tree: ast.Module) -> set[str]:
    """The names of a module's own, `_so`, that are never used in it."""
    kinds = (ast.ClassDef, *_FUNCTIONS)
    defined = {it.name for it in tree.body if isinstance(it, kinds)}
    for each in ast.walk(ast.Module([it for it in tree.body if isinstance(it, ast.Assign)], [])):
        if isinstance(each, ast.Name) and isinstance(each.ctx, ast.Store):
            defined.add(each.id)
    used = {
        it.id for it in ast.walk(tree) if isinstance(it, ast.Name) and isinstance(it.ctx, ast.Load)
    }
    return {name for name in defined - used if re.match("_[^_]", name)}


def test_what_a_module_keeps_to_itself_is_used() -> None:
    assert {file: names for file, tree in TREES.items() if (names := unused_of(tree))} == {}
    text = "_a = 1\n_b, _c = 2, 3\ndef _d(): return _c\nclass _E: _f = 4\nx = 5\n"
    assert unused_of(ast.parse(text)) == {"_a", "_b", "_d", "_E"}


def test_functions_are_short() -> None:
    assert {where for where, it in FUNCTIONS if lines_of(it) > MOST_LINES} == LONG


def test_functions_take_few_arguments() -> None:
    many = {where for where, it in FUNCTIONS if arguments_of(it) > MOST_ARGUMENTS}
    assert many == MANY_ARGUMENTS


def test_functions_are_found_and_measured() -> None:
    """Those within others too; lines without the manual, arguments without the object."""
    text = """
class Some:
    def one(self, a, *b, c=1, **d):
        '''One.

        Two.
        '''
        async def two(): ...
        return a
"""
    found = list(functions_of(ast.parse(text)))
    assert [name for name, _ in found] == ["Some.one", "Some.two"]
    assert [lines_of(it) for _, it in found] == [3, 1]
    assert [arguments_of(it) for _, it in found] == [4, 0]
