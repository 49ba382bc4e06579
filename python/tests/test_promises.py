"""What docs/PROMISES.md promises of Python: names that are there, and the desk's statuses."""

import importlib
import subprocess
import sys
from pathlib import Path
from pkgutil import walk_packages
from types import ModuleType

import pytest

import propbench
from propbench import errors, replies
from propbench.desk import main
from propbench.measuring.elementary import FUNCTIONS, curve, pi

# What 1.0 had: more may come, none may go.
NAMES = """
Answer Certificate CertificateError Conflict Contradiction Done Elements EmptyValue Impossible
Interrupted IsAChoice LimitReached LineTooLong MixedUnits NameTaken NoBound NoProgram NoReading
NoSuchCell NoSuchDomain NoSuchPremise NoSuchProcedure NoSuchRelation Nogoods NotANumberInRange
NotAName NotAWorkbench NotInTheDomain NotSettled NotUtf8 Nothing OutOfMemory ProgramEnded Refused
Reply Session Settled Silent Span Symbol TooCoarse UnknownCommand UnknownUnit Unsettled Value
Workbench Worldview WrongCountOfCells WrongForm WrongKind WrongParameter all_different count element
find_program find_wide if_else implies maximum mean minimum pairs total
"""
MEMBERS = {
    "Workbench": """
        answer believed bring cell cells choose close compare conflicts critical diff domain element
        fix forget greatest kick lacks law least lines load measured number outliers picture plan
        plans predict proved read repairs require room save scenarios sensitivity session settle
        shave show slack snapshot sweep symbol table tell truth what_if
    """,
    "Session": "close fresh lines proved replay send send_all",
    "Certificate": "check save",
}
COMMANDS = "run check blame plan measure minizinc shell draw page"


def test_names_stay() -> None:
    """Each can be imported as ever, and is where one looks for it first."""
    first = {name for it in (propbench, errors, replies) for name in vars(it)["__all__"]}
    assert set(NAMES.split()) <= first
    assert all(hasattr(propbench, name) for name in [*NAMES.split(), *vars(propbench)["__all__"]])


def test_functions_of_laws_are_there_too() -> None:
    """By the names that they have in laws; but a star doesn't bring them in."""
    for name, function in {**FUNCTIONS, "curve": curve, "pi": pi}.items():
        assert getattr(propbench, name) is function and name in dir(propbench)
        assert name not in vars(propbench)["__all__"]


@pytest.mark.parametrize("module", [errors, replies])
def test_errors_and_replies_are_one_place_each(module: ModuleType) -> None:
    """All that is raised stands in the one, and nothing else; so do replies in the other."""
    for name in module.__all__:
        it = getattr(module, name)
        is_raised = isinstance(it, type) and issubclass(it, BaseException)
        assert is_raised == (module is errors), name
        assert getattr(propbench, name, it) is it


def test_what_users_name_first() -> None:
    wanted = """Workbench Session Project Task Quantity Law Answer Optimum Conflicts Repairs
        NothingFits Conflict errors replies"""
    assert set(wanted.split()) <= set(vars(propbench)["__all__"])
    assert len(vars(propbench)["__all__"]) <= 40
    named = [each for each in classes_of_the_package() if each.__name__ == "Conflict"]
    assert named == [propbench.Conflict]


def classes_of_the_package() -> list[type]:
    """The classes that the modules of the package define, but those which need what isn't there."""
    found = []
    for each in walk_packages(propbench.__path__, "propbench."):
        if not each.name.startswith(("propbench.notebook", "propbench.lexer", "propbench.__main")):
            module = importlib.import_module(each.name)
            found += [it for it in vars(module).values() if isinstance(it, type)]
    return list(dict.fromkeys(it for it in found if it.__module__.startswith("propbench")))


@pytest.mark.parametrize("name", MEMBERS)
def test_members_stay(name: str) -> None:
    assert [it for it in MEMBERS[name].split() if not hasattr(getattr(propbench, name), it)] == []


# A line that is refused behind `cell x span`, its number and its class.
REFUSED = {
    "say x": (3, "UnknownCommand"),
    "ask": (4, "WrongForm"),
    "cell 3 span": (5, "NotAName"),
    "limit many": (6, "NotANumberInRange"),
    "cell x span": (7, "NameTaken"),
    "cell y nowhere": (8, "NoSuchDomain"),
    "ask zz": (9, "NoSuchCell"),
    "kick ana": (10, "NoSuchPremise"),
    "attach unknown x": (11, "NoSuchProcedure"),
    "attach adder x x": (12, "WrongCountOfCells"),
    "fix x {}": (13, "WrongKind"),
    "attach adder x x x by 3": (14, "WrongParameter"),
    "fix x 5..3": (18, "EmptyValue"),
    "attach imager x x by unknown": (19, "NoSuchRelation"),
}


@pytest.mark.parametrize("line", REFUSED)
def test_refusals_keep_their_numbers(line: str) -> None:
    with propbench.Session() as session:
        session.send("cell x span")
        with pytest.raises(propbench.Refused) as refused:
            session.send(line)
    assert (refused.value.number, type(refused.value).__name__) == REFUSED[line]


def test_statuses_of_the_desk_stay(tmp_path: Path, monkeypatch: pytest.MonkeyPatch) -> None:
    good, bad = tmp_path / "good.prop", tmp_path / "bad.prop"
    good.write_text("cell x span\nfix x 3\n")
    bad.write_text("cell x span\nask y\n")
    assert main(["run", str(good)]) == 0
    assert main(["run", str(bad)]) == 1
    assert main(["run", str(tmp_path / "none.prop")]) == 3
    (tmp_path / "model.mzn").write_text("solve satisfy;\n")
    with monkeypatch.context() as there:
        there.setenv("PATH", str(tmp_path))  # where MiniZinc isn't
        assert main(["blame", str(tmp_path / "model.mzn")]) == 3
    with pytest.raises(SystemExit) as ended:
        main(["run"])
    assert ended.value.code == 2


@pytest.mark.parametrize("command", COMMANDS.split())
def test_commands_of_the_desk_stay(command: str) -> None:
    words = [sys.executable, "-m", "propbench", command, "--help"]
    assert subprocess.run(words, capture_output=True).returncode == 0
