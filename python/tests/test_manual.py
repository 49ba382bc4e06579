"""The manual that `help()` shows: what is public says what it is for, by an example that is run."""

import doctest
import inspect
import re
from pathlib import Path

import pytest

import propbench
from propbench import errors, questions, replies
from propbench.model.cells import ElementCell, NumberCell
from propbench.model.measured import MeasuredAnswer

# What users hold in their hands, of which each public member has an example.
CLASSES: list[type] = [
    propbench.Workbench,
    propbench.Session,
    propbench.Project,
    propbench.Task,
    propbench.Quantity,
    NumberCell,
    ElementCell,
    propbench.Answer,
    MeasuredAnswer,
    propbench.Certificate,
    propbench.Conflicts,
    propbench.Optimum,
    propbench.Plans,
    propbench.Repairs,
    propbench.Solution,
    questions.Critical,
    questions.Differences,
    questions.Optima,
    questions.Scenarios,
    questions.Sensitivity,
    questions.Slack,
    questions.TradeOff,
]
# What the examples use without an import.
GIVEN: dict[str, object] = {
    name: getattr(module, name)
    for module in (errors, replies, propbench)
    for name in module.__all__
}


def members(cls: type) -> dict[str, object]:
    """The public members that the package defines, those of built-in classes left out."""
    own = [each for each in cls.__mro__ if each.__module__.startswith("propbench")]
    names = {name for each in own for name in vars(each) if name[0] != "_"}
    return {name: inspect.getattr_static(cls, name) for name in sorted(names)}


def documents() -> dict[str, str]:
    """The docstrings of all that is public, by names."""
    found = {"propbench": propbench.__doc__ or ""}
    for cls in CLASSES:
        found[cls.__name__] = inspect.getdoc(cls) or ""
        for name in members(cls):
            text = inspect.getdoc(getattr(cls, name, None)) or ""
            if text and text not in found.values():
                found[f"{cls.__name__}.{name}"] = text
    return found


DOCUMENTS = documents()


@pytest.mark.parametrize("name", [name for name, text in DOCUMENTS.items() if ">>>" in text])
def test_the_examples(
    name: str, wide: str, tmp_path: Path, monkeypatch: pytest.MonkeyPatch
) -> None:
    """Each does what it says, over propwide."""
    monkeypatch.setenv("PROPBENCH", wide)
    monkeypatch.chdir(tmp_path)
    example = doctest.DocTestParser().get_doctest(DOCUMENTS[name], dict(GIVEN), name, None, 0)
    said: list[str] = []
    ran = doctest.DocTestRunner(verbose=False).run(example, out=said.append)
    assert ran.attempted > 0 and ran.failed == 0, "".join(said)


@pytest.mark.parametrize("cls", CLASSES, ids=lambda cls: str(cls.__name__))
def test_each_has_an_example(cls: type) -> None:
    """A method, a property and what is in a class's manual."""
    without = [
        name
        for name, member in members(cls).items()
        if callable(member) or isinstance(member, (property, classmethod))
        if ">>>" not in (inspect.getdoc(getattr(cls, name)) or "")
    ]
    assert without == []
    assert len(inspect.getdoc(cls) or "") > 20


def test_the_workbench_says_what_is_for_what() -> None:
    """Its manual names each public member, in groups."""
    told = set(re.findall(r"`(?:x\.)?(\w+)(?:\(\))?`", inspect.getdoc(propbench.Workbench) or ""))
    assert set(members(propbench.Workbench)) <= told
