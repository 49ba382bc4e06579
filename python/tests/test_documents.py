"""What the package has taken over from the language's description is what stands there."""

import re

import pytest
from conftest import REPOSITORY

from propbench import Refused, Session
from propbench.commands import USAGES, usages_of
from propbench.grammar import FORMS, parsed
from propbench.helping import all_help, help_on
from propbench.kit import KIT, PRELUDE
from propbench.known import Known
from propbench.words import MOST_BYTES, MOST_NUMBER, MOST_SCALE, MOST_STEPS, NO_NAMES

LANGUAGE = (REPOSITORY / "docs/LANGUAGE.md").read_text(encoding="utf-8")


def rows(*heads: str) -> list[list[str]]:
    """The rows of the table with these heads."""
    head = f"| {' | '.join(heads)} |\n"
    assert head in LANGUAGE
    text = LANGUAGE.partition(head)[2].partition("\n\n")[0]
    return [
        [cell.strip() for cell in line.strip("|").split(" | ")] for line in text.split("\n")[1:]
    ]


def test_commands_are_those_of_the_document() -> None:
    table = rows("Command", "What it does", "Reply")
    assert [(f"`{usage.form}`", usage.meaning) for usage in USAGES] == [
        (form, meaning) for form, meaning, _ in table
    ]
    assert {usage.command for usage in USAGES} == set(FORMS)


def test_procedures_are_those_of_the_document() -> None:
    table = rows("Name", "Cells", "Meaning")
    assert {f"`{name}`": list(zip(made.cells, made.kinds)) for name, made in KIT.items()} == {
        name: [tuple(cell.split()) for cell in cells.split(", ")] for name, cells, _ in table
    }
    scaled = [name for name, _, meaning in table if "by a scale" in meaning]
    linked = [name for name, _, meaning in table if "relation" in meaning]
    assert [f"`{name}`" for name in KIT if KIT[name].given == "scale"] == scaled
    assert [f"`{name}`" for name in KIT if KIT[name].given == "relation"] == linked


def test_definitions_are_those_of_the_document(program: str) -> None:
    table = rows("Name", "Cells", "Meaning", "Example", "Answer")
    known = Known()
    assert {f"`{name}`": list(made.parameters) for name, made in known.definitions.items()} == {
        name: [cell.split()[0] for cell in cells.split(", ")] for name, cells, *_ in table
    }
    with Session(program) as session:
        for line in PRELUDE:
            with pytest.raises(Refused) as caught:
                session.send(line)
            assert caught.value.number == 7


def test_words_and_limits_are_those_of_the_document() -> None:
    words = re.search(r"`(by local [a-z ]+)`\s+are no names", LANGUAGE.replace("\n", " "))
    assert words and NO_NAMES == set(words[1].split())
    text = LANGUAGE.replace("\n", " ")
    assert f"at most {MOST_BYTES:,} bytes" in text
    assert f"from -{MOST_NUMBER} to {MOST_NUMBER} (10^18 either way)" in text
    assert f"a scale K, a number from 1 to {MOST_SCALE:,}" in text
    assert f"at most N steps, 0 to {MOST_STEPS:,}" in text


def test_every_line_of_the_document_has_its_form() -> None:
    """The sessions in it: whatever is not refused follows its command's form."""
    lines = [line.strip() for line in LANGUAGE.split("\n") if line.startswith("    ")]
    commands = [
        line for line in lines if line.split()[0] in FORMS and not line.startswith("nogoods 2")
    ]
    assert len(commands) > 40
    for line in commands:
        assert parsed(line).complete, line


@pytest.mark.parametrize("command", FORMS)
def test_help_on_each_command(command: str) -> None:
    text = help_on(command, Known())
    assert all(usage.form in text for usage in usages_of(command))
    assert all(usage.form in all_help() for usage in usages_of(command))


def test_help_fits_the_terminal(monkeypatch: pytest.MonkeyPatch) -> None:
    for columns in (60, 100):
        monkeypatch.setenv("COLUMNS", str(columns))
        assert max(map(len, all_help().split("\n"))) <= columns
    assert "answered X = 13..15 because a" in " ".join(help_on("core", Known()).split())
    assert "below" not in all_help()


def test_help_on_procedures_and_refusals() -> None:
    known = Known()
    assert "z is the sum of x and y" in help_on("sum", known)
    assert "by 2, x = 7, y = 3 gives z = 10..11" in help_on("multiplier", known)
    assert "no cell has the name" in help_on("9", known)
    assert "no help on 'coffee'" in help_on("coffee", known)
