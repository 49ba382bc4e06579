"""Plans as they are written down and worked on: rows that change, wishes in words, what is taken
back, what was agreed on, and files of all that."""

from collections.abc import Callable, Iterator
from datetime import date
from itertools import product
from pathlib import Path
from typing import Any

import pytest

from propbench import NothingFits, Workbench
from propbench.desk import main
from propbench.model.saving import NotAWorkbench
from propbench.planning.draft import (
    Draft,
    draft_in,
    draft_of,
    lines_of,
    new_draft,
    with_people,
)
from propbench.planning.open_plan import OpenPlan
from propbench.planning.reading import brief_of
from propbench.planning.brief import Given
from propbench.planning.rules import said_in
from propbench.planning.seen import Gap
from propbench.planning.sheet_files import written
from propbench.planning.sheets import Sheet, SheetError, sheets_of

MONDAY = date(2026, 3, 9)
TASKS = (
    {"task": "venue", "days": "3", "who": "ana"},
    {"task": "review", "days": "5", "who": "ben or ana", "after": "venue"},
    {"task": "book", "days": "2", "who": "ana, ben", "after": "review; venue"},
)
PEOPLE = ({"person": "ana"}, {"person": "ben"}, {"person": "hall", "holds": "2"})


@pytest.fixture(autouse=True)
def here(wide: str, tmp_path: Path, monkeypatch: pytest.MonkeyPatch) -> None:
    monkeypatch.setenv("PROPBENCH", wide)
    monkeypatch.chdir(tmp_path)


@pytest.fixture
def plan() -> Iterator[OpenPlan]:
    """Three tasks of Ana and Ben, which take the days 0 to 2, 3 to 7, and 8 and 9."""
    draft = new_draft(date(2026, 3, 3)).with_rows("people", PEOPLE).with_rows("tasks", TASKS)
    with OpenPlan(draft, Workbench) as made:
        yield made


def ends(plan: OpenPlan) -> int | None:
    """The day by which all is done, None where there is no plan."""
    best = plan.best(60)
    assert best is not None and best.proved
    return None if best.plan is None else plan.last.end if plan.last else None


def test_a_new_plan_begins_on_a_monday() -> None:
    for day in range(2, 9):
        [row] = new_draft(date(2026, 3, day)).rows("plan")
        assert row["start"] == ("2026-03-02" if day == 2 else "2026-03-09")
    with OpenPlan(new_draft(MONDAY), Workbench) as plan:
        assert plan.best(5) is None and plan.project is None and plan.undoes == ""


def test_what_is_called_otherwise_is_so_everywhere(plan: OpenPlan) -> None:
    plan.put("wishes", None, {"wish": "Review after venue"})
    plan.put("wishes", None, {"wish": "soon", "task": "venue", "latest": "20 March"})
    plan.put("absences", None, {"person": "ana", "from": "2026-03-10"})
    plan.put("tasks", 0, {"task": "hall tour", "days": "3", "who": "ana", "uses": "2 hall"})
    plan.put("people", 0, {"person": "Ana Lu"})
    plan.put("people", 2, {"person": "room", "holds": "2"})
    assert plan.draft is not None
    assert plan.draft.rows("tasks") == (
        {"task": "hall tour", "days": "3", "who": "Ana Lu", "uses": "2 room"},
        {"task": "review", "days": "5", "who": "ben or Ana Lu", "after": "hall tour"},
        {"task": "book", "days": "2", "who": "Ana Lu, ben", "after": "review; hall tour"},
    )
    assert plan.draft.rows("wishes") == (
        {"wish": "Review after hall tour"},
        {"wish": "soon", "task": "hall tour", "latest": "20 March"},
    )
    assert plan.draft.rows("absences") == ({"person": "Ana Lu", "from": "2026-03-10"},)


def test_what_is_gone_is_gone_everywhere(plan: OpenPlan) -> None:
    plan.put("wishes", None, {"wish": "review after venue"})
    plan.put("wishes", None, {"wish": "soon", "task": "venue", "latest": "20 March"})
    plan.put("wishes", None, {"wish": "all by 30 March"})
    plan.put("absences", None, {"person": "ana", "from": "2026-03-10"})
    plan.drop("tasks", 0)
    plan.drop("people", 0)
    assert plan.draft is not None
    assert plan.draft.rows("tasks") == (
        {"task": "review", "days": "5", "who": "ben"},
        {"task": "book", "days": "2", "who": "ben", "after": "review"},
    )
    assert plan.draft.rows("wishes") == ({"wish": "all by 30 March"},)
    assert plan.draft.rows("absences") == ()
    assert ends(plan) == 7
    with pytest.raises(ValueError, match="no such row any more"):
        plan.drop("tasks", 5)


def test_setup_times_go_with_their_kinds(plan: OpenPlan) -> None:
    """Ana has red and blue ones: 3 days, 4 more, and 2 with Ben, who has 5."""
    plan.put("tasks", 0, TASKS[0] | {"kind": "red"})
    plan.put("tasks", 2, TASKS[2] | {"kind": "blue", "after": "venue"})
    row = {"person": "ana", "from": "red", "to": "blue", "days": "4"}
    plan.put("setups", None, row)
    plan.put("setups", None, row | {"from": "blue", "to": "red", "days": "1"})
    assert ends(plan) == 3 + 5 + 2 == 10
    plan.put("setups", 0, row | {"days": "6"})
    assert ends(plan) == 3 + 6 + 2
    plan.put("tasks", 2, TASKS[2] | {"kind": "green", "after": "venue"})
    plan.put("people", 0, {"person": "Ana Lu"})
    assert plan.draft is not None
    called = {"person": "Ana Lu", "from": "red", "to": "green", "days": "6"}
    assert plan.draft.rows("setups")[0] == called and ends(plan) == 11
    assert draft_of(plan.draft.sheets()) == plan.draft
    # a kind that there is already is none in its place
    plan.put("tasks", 2, TASKS[2] | {"kind": "red", "who": "Ana Lu, ben", "after": "venue"})
    assert plan.draft.rows("setups") == () and ends(plan) == 10
    plan.undo()
    assert ends(plan) == 11
    plan.drop("tasks", 0)
    assert plan.draft.rows("setups") == ()


def test_what_stands_in_the_way_may_be_a_setup(plan: OpenPlan) -> None:
    plan.put("tasks", 0, TASKS[0] | {"kind": "red"})
    plan.put("tasks", 2, TASKS[2] | {"kind": "blue", "after": "venue"})
    plan.put("setups", None, {"person": "ana", "from": "red", "to": "blue", "days": "6"})
    plan.put("wishes", None, {"wish": "all by 20 March"})
    found = plan.hindrances(60)
    assert found.complete and {each.says: each.cost for each in found.repairs} == {
        ("give up all by 20 March",): 1,
        ("get ana to go from red to blue at once",): 20,
    }


def test_steps_are_taken_back_and_done_again(plan: OpenPlan) -> None:
    begun = plan.draft
    assert ends(plan) == 10
    plan.put("wishes", None, {"wish": "all by 18 March"})
    assert ends(plan) is None and plan.undoes == "add all by 18 March"
    found = plan.hindrances(60)
    assert {each.premises for each in found.repairs} == {("all by 18 March",)} and found.complete
    plan.believe(["all by 18 March"], False)
    assert ends(plan) == 10 and plan.undoes == "give up all by 18 March"
    assert plan.draft is not None
    assert plan.draft.rows("given up") == ({"premise": "all by 18 March"},)
    workbench = plan.workbench
    plan.undo()
    assert ends(plan) is None and plan.draft.rows("given up") == ()
    # (what is given up changes nothing else, so nothing is stated anew)
    assert plan.workbench is workbench
    plan.undo()
    assert ends(plan) == 10 and plan.draft == begun and plan.undoes == ""
    with pytest.raises(ValueError, match="nothing to take back"):
        plan.undo()
    plan.redo()
    plan.redo()
    assert ends(plan) == 10 and plan.redoes == ""
    assert "all by 18 March" not in plan.workbench.believed
    with pytest.raises(ValueError, match="nothing to do again"):
        plan.redo()


def test_what_cannot_be_taken_leaves_all_as_it_was(plan: OpenPlan) -> None:
    before, workbench = plan.draft, plan.workbench
    cases: list[tuple[str, dict[str, Any], str]] = [
        ("tasks", {"task": "x", "days": "soon"}, "days: `soon` is not a whole number"),
        ("tasks", {"task": "x", "days": "1", "after": "y"}, "after: no task is called `y`"),
        ("tasks", {"task": "x", "days": "1", "who": "bee"}, "who: no person is called `bee`"),
        ("tasks", {"task": "x", "days": "1", "uses": "3 hall"}, "uses: there is 2 of `hall`"),
        ("wishes", {"wish": "venue is great"}, "`venue is great` can't be read. Say `review done"),
        ("wishes", {"wish": "venues by 3 March"}, "called `venues`. Did you mean venue?"),
        ("tasks", {"task": ["x"]}, "a row of tasks has texts under its headings"),
        ("tasks", {"colour": "red"}, "a row of tasks has texts under its headings"),
        ("tasks", {"task": " "}, "there is nothing in this row"),
    ]
    for table, row, why in cases:
        with pytest.raises(ValueError) as caught:
            plan.put(table, None, row)
        assert why in str(caught.value)
    assert plan.draft == before and plan.workbench is workbench and plan.undoes == ""


# What words say, of the ends of tasks that are enumerated: venue takes 3 days, review 5.
RULES: dict[str, Callable[[int, int], bool]] = {
    "review after venue": lambda v, r: r >= v + 3,
    "review at least 2 days after venue": lambda v, r: r >= v + 5,
    "review 2 days after venue": lambda v, r: r == v + 5,
    "review 1 to 3 days after venue": lambda v, r: v + 4 <= r <= v + 6,
    "review at most 1 day after venue": lambda v, r: v + 3 <= r <= v + 4,
    "review and venue not at once": lambda v, r: r >= v + 3 or v >= r + 5,
    "review not at the same time as venue": lambda v, r: r >= v + 3 or v >= r + 5,
    "Review together with Venue": lambda v, r: r == v,
    "review on 11 March": lambda v, r: r == 2,
    "review not before 11 March": lambda v, r: r >= 2,
    "review done by 18 March": lambda v, r: r + 5 <= 8,
    "all by 18 March": lambda v, r: r + 5 <= 8 and v + 3 <= 8,
    "review ends by 18 March": lambda v, r: r + 5 <= 8,
}


@pytest.mark.parametrize("text", RULES)
def test_words_say_what_they_mean(text: str) -> None:
    """All pairs of first days over ten days: those that the words allow are those of the plans."""
    draft = Draft(
        {
            "plan": ({"start": "2026-03-09", "off": "sat sun", "days": "10"},),
            "tasks": ({"task": "venue", "days": "3"}, {"task": "review", "days": "5"}),
            "wishes": ({"wish": text},),
        }
    )
    with OpenPlan(draft, Workbench) as plan:
        assert plan.project is not None
        tasks = plan.project.tasks
        cells = [tasks["venue"].start, tasks["review"].start]
        found = {(it["venue start"], it["review start"]) for it in plan.workbench.plans(cells)}
        wanted = {(v, r) for v, r in product(range(8), range(6)) if RULES[text](v, r)}
        assert found == wanted and plan.plan is not None
        assert text in plan.plan.weights and text not in plan.plan.facts


def test_words_say_who_does_it_and_who_is_away(plan: OpenPlan) -> None:
    def doers() -> list[str]:
        assert ends(plan) is not None and plan.last is not None
        return [",".join(it.people) for it in plan.last.entries if it.task == "review"]

    for text, wanted in (("ana does review", "ana"), ("ana doesn't do review", "ben")):
        plan.put("wishes", None, {"wish": text})
        assert doers() == [wanted]
        plan.undo()
    plan.put("wishes", None, {"wish": "ana away 9-10 March"})
    assert ends(plan) == 12
    plan.undo()
    plan.put("wishes", None, {"wish": "ben does venue"})
    assert ends(plan) is None
    plan.undo()
    plan.put("tasks", 0, {"task": "venue", "days": "3", "cost": "900"})
    plan.put("wishes", None, {"wish": "cost at most 800"})
    assert ends(plan) is None
    assert [each.premises for each in plan.hindrances(60).repairs] == [("cost at most 800",)]


def test_names_of_tasks_may_have_words_of_rules() -> None:
    tasks = ["task 1", "day after", "review"]
    found = said_in("task 1 after day after", tasks, ["ana"])
    assert (found.sort, found.names, found.days) == ("lag", ("task 1", "day after"), (0, None))
    assert said_in("review by 3 March", tasks, ["ana"]).rest == "3 March"
    with pytest.raises(ValueError, match="nothing in the plan is called `revue`. Did you mean"):
        said_in("revue by 3 March", tasks, ["ana"])


@pytest.mark.parametrize("name", ["plan.ods", "plan.xlsx"])
def test_files_have_all_of_a_plan(
    plan: OpenPlan, name: str, capsys: pytest.CaptureFixture[str]
) -> None:
    plan.put("wishes", None, {"wish": "all by 18 March", "weight": "3"})
    plan.put("tasks", 0, {"task": "=1+2", "days": "3", "who": "ana", "notes": "call them, 08-15"})
    plan.believe(["all by 18 March"], False)
    assert ends(plan) == 10
    plan.agree(plan.last)
    assert plan.draft is not None
    Path(name).write_bytes(written(plan.draft.sheets(), name))
    again = draft_of(sheets_of(name))
    assert again == plan.draft
    assert again.rows("tasks")[0]["notes"] == "call them, 08-15"
    assert main(["plan", name]) == 0
    told = capsys.readouterr().out
    assert told.startswith("Given up already: all by 18 March.\nFrom Mon 9 Mar 2026 to Fri 20 Mar")
    assert "Since what was agreed on: Nothing moved." in told
    with OpenPlan(again, Workbench) as other:
        assert ends(other) == 10 and "all by 18 March" not in other.workbench.believed
        assert other.project is not None and other.project.baseline is not None
        assert other.project.baseline.end == 10
        assert other.last is not None
        assert other.last.since(other.project.baseline).headline() == "Nothing moved."
        other.put("people", 0, {"person": "ana", "works": "tue wed thu"})
        assert ends(other) != 10 and other.last.since(other.project.baseline)


def test_a_table_of_tasks_is_a_csv_file() -> None:
    sheets = [Sheet("tasks", ((1, ("task", "days")), (2, ("=x", "3"))))]
    assert written(sheets, "a.csv") == b"task,days\r\n'=x,3\r\n"
    with pytest.raises(SheetError, match="a .csv file has one table"):
        written([*sheets, Sheet("people", ((1, ("person",)),))], "a.csv")
    with pytest.raises(SheetError, match="saved as .ods, .xlsx or .csv"):
        written(sheets, "a.txt")


def test_sheets_of_somebody_else_stay() -> None:
    tasks = Sheet("tasks", ((1, ("task", "days", "notes")), (2, ("a", "3", "mine"))))
    other = Sheet("budget", ((1, ("item",)), (2, ("cake",))))
    draft = draft_of([tasks, other])
    assert draft.others == (other,) and draft.rows("tasks")[0]["notes"] == "mine"
    assert [sheet.name for sheet in draft.sheets()] == ["tasks", "budget"]
    named = with_people(
        draft_of(
            [Sheet("tasks", ((1, ("task", "days", "who", "uses")), (2, ("a", "3", "ana", "lift"))))]
        ),
        brief_of(
            [
                Sheet(
                    "tasks", ((1, ("task", "days", "who", "uses")), (2, ("a", "3", "ana", "lift")))
                )
            ],
            Given(),
        ),
    )
    assert named.rows("people") == ({"person": "ana"}, {"person": "lift", "holds": "1"})


def test_a_saved_workbench_keeps_what_was_agreed(wide: str) -> None:
    with Workbench(wide) as w:
        p = w.project(days=30, people="ana ben", start=MONDAY, off="sat sun")
        p.resource("hall", 2)
        venue = p.task("venue", 5, who="ana", uses={"hall": 2})
        p.task("review", 5, who="ben", after=[venue], options=None)
        p.away("ana", "2026-03-11", "2026-03-12")
        assert p.baseline is None
        p.agree(w.least(p.end))
        w.save("plan.prop")
        [again] = Workbench.load("plan.prop").projects
        assert again.baseline is not None and p.baseline is not None
        assert again.baseline.entries == p.baseline.entries
        assert str(again.baseline) == str(p.baseline)
        p.agree(None)
        w.save("none.prop")
    [none] = Workbench.load("none.prop").projects
    assert none.baseline is None
    text = Path("plan.prop").read_text()
    assert '"baseline"' in text
    Path("bad.prop").write_text(text.replace('"baseline": [[{"task"', '"baseline": [[{"job"'))
    with pytest.raises(NotAWorkbench):
        Workbench.load("bad.prop")


def test_conflicts_are_told_by_their_fewest_wishes(plan: OpenPlan) -> None:
    """Venue, review and book take 3, 5 and 2 days one after the other: in 9 days they don't fit,
    whoever helps; and by the 12th venue isn't done where it begins on the 11th."""
    plan.put("wishes", None, {"wish": "all by 19 March"})
    plan.put("wishes", None, {"wish": "venue by 12 March"})
    plan.put("wishes", None, {"wish": "venue on 11 March"})
    found = plan.hindrances(60)
    told = [{name for name, _ in each.wishes} for each in found.conflicts]
    assert sorted(sorted(each) for each in told) == [
        ["all by 19 March"],
        ["venue by 12 March", "venue on 11 March"],
    ]
    facts = {name for each in found.conflicts for name in each.facts}
    assert {"venue takes 3", "review takes 5", "book takes 2"} <= facts
    assert {each.premises for each in found.repairs} == {
        ("all by 19 March", "venue by 12 March"),
        ("all by 19 March", "venue on 11 March"),
    }


def test_what_to_do_is_told_in_words(plan: OpenPlan) -> None:
    """Two days of a hall for two, of three tasks: in two days they fit with more of it, or where
    Ana, who has two of them, has help."""
    for number, who in enumerate(("ana", "ana", "ben")):
        row = {"task": f"talk {number}", "days": "2", "who": who, "uses": "hall"}
        plan.put("tasks", None, row)
    for number in range(2):
        plan.put("wishes", None, {"wish": f"talk {number} by 10 March"})
    plan.put("absences", None, {"person": "ben", "from": "2026-03-09"})
    plan.put("wishes", None, {"wish": "talk 2 by 10 March"})
    says = {each.premises: each.says for each in plan.hindrances(60).repairs}
    assert {word for each in says.values() for word in each} >= {
        "get somebody to help ana",
        "get more of hall",
        "get ben to be there 9 Mar",
        "give up talk 2 by 10 March",
    }
    assert ("talk 0 by 10 March", "talk 2 by 10 March") in {tuple(sorted(it)) for it in says}


def test_how_far_a_plan_may_be_from_the_best() -> None:
    assert str(Gap(48, 47, False)) == "There may be one that ends sooner, by 1 day at most."
    assert str(Gap(48, 40, False)) == "There may be one that ends sooner, by 8 days at most."
    assert str(Gap(48, None, False)) == "Maybe there is one that ends sooner."
    assert str(Gap(48, 48, True)) == "No plan ends sooner."


def test_what_if_of_a_plan(plan: OpenPlan) -> None:
    """With Ana ill on the first three days of work all begins with the fourth."""
    assert ends(plan) == 10
    best = plan.supposed("ana ill 9-11 March", 60)
    assert plan.project is not None and best.plan is not None
    assert plan.project.schedule(best).end == 13
    assert ends(plan) == 10
    without = plan.without(["ana does one thing at a time"], 60)
    assert without.plan is not None and plan.project.schedule(without).end == 10
    with pytest.raises(NothingFits):
        plan.put("wishes", None, {"wish": "all by 10 March"})
        plan.workbench.solve()


def test_a_draft_is_kept_as_lines(plan: OpenPlan) -> None:
    plan.put("wishes", None, {"wish": "all by 18 March"})
    assert plan.draft is not None
    draft = Draft(plan.draft.tables, (Sheet("budget", ((1, ("item",)), (4, ("cake", "")))),))
    assert draft_in(lines_of(draft)) == draft
    for wrong in ('["tasks"]', '["none", {}]', "[]", "{", '["tasks", {"days": 3}]', '["", "x"]'):
        with pytest.raises(ValueError):
            draft_in([wrong])
