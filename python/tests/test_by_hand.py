"""Plans that are made by hand, task by task: they only say where a search begins."""

import random
import re

import pytest
from drawn_projects import drawn_project, faults, project_of, searched

from propbench import Workbench, any_of, skilled
from propbench.clock import Clock
from propbench.planning import Project, Task, by_hand
from propbench.planning.who import Who
from propbench.questions.ends import Ending
from propbench.questions.seeking import Seeker
from propbench.values import Span


@pytest.fixture
def few(wide: str, monkeypatch: pytest.MonkeyPatch) -> None:
    """Small projects are made by hand too."""
    monkeypatch.setattr(by_hand, "_FEWEST", 1)
    monkeypatch.setenv("PROPBENCH", wide)


def test_they_change_no_answer(few: None) -> None:
    counts: dict[str, int] = {}
    assert [fault for seed in range(5000, 5012) for fault in faults(seed, counts)] == []


def test_they_fit_as_the_program_says_and_end_no_sooner_than_any(few: None) -> None:
    """Of 60 small projects, of which a search of all plans tells which have some."""
    tried = fit = 0
    for seed in range(6000, 6060):
        made = drawn_project(seed)
        least = min((end for end, _ in searched(made).fits), default=None)
        with Workbench() as w:
            p = project_of(w, made)
            line = w.model.cell_name(p.end.name)
            with Seeker(w.model, Clock(20, None)) as seeker:
                points = seeker.by_hand()
            tried += least is not None
            fit += points is not None
            # (what doesn't fit isn't told as if it did)
            if points is not None:
                value = points.values[line]
                assert least is not None and isinstance(value, Span) and value.low >= least
    assert tried >= 20 and fit >= tried // 2


def many(w: Workbench, seed: int) -> Project:
    """Twenty tasks of people with skills, absences and a lift, in order."""
    draw = random.Random(seed)
    names = ("ana", "ben", "cem", "dia")
    can = {name: draw.choice(("welding", "welding wiring", "wiring")) for name in names}
    can |= {"ana": "welding wiring", "ben": "welding wiring"}
    p = w.project(days=120, people=names, skills=can)
    p.resource("lift", 2)
    p.away("ana", 3, 6)
    made: list[Task] = []
    for number in range(20):
        who: Who = skilled(draw.choice(("welding", "wiring"))) if number % 3 else any_of(2, *names)
        after = [task for task in made[-4:] if draw.random() < 0.2]
        uses = {"lift": 1} if draw.random() < 0.4 else None
        made.append(p.task(f"t{number}", draw.randint(1, 5), who=who, after=after, uses=uses))
    p.not_before(8, made[3])
    return p


@pytest.mark.parametrize("seed", range(3))
def test_a_search_begins_with_one(wide: str, monkeypatch: pytest.MonkeyPatch, seed: int) -> None:
    """What is known at once is a plan that ends no later, and what is known then is no worse: in
    the end it is what a search finds that begins with none."""
    with Workbench(wide) as w:
        p = many(w, seed)
        end = p.end.name
        with Seeker(w.model, Clock(20, None)) as seeker:
            points = seeker.by_hand()
            assert points is not None
            value = points.values[w.model.cell_name(end)]
            assert isinstance(value, Span)
            first = value.low
            ending = Ending(seeker, end, "least")
            # (without time the plan that was made by hand is all that is known)
            ending.run(0)
            begun = ending.optimum()
            ending.run(20)
            found = ending.optimum()
        assert begun.value is not None and begun.value <= first
        assert found.value is not None and found.value <= begun.value
        monkeypatch.setattr(by_hand, "_FEWEST", 1000)
        with Workbench(wide) as other:
            again = many(other, seed)
            assert other.least(again.end).value == found.value and found.proved


def test_one_waits_for_what_is_wished_for(few: None) -> None:
    """Nothing of Ana's begins before that, and what Ben does begins at once."""
    with Workbench() as w:
        p = w.project(days=30, people="ana ben")
        p.wish("ana", after=6)
        p.task("venue", 2, who="ana")
        p.task("review", 2, who="ben")
        found = by_hand.made_by_hand(w.network)
        assert (found["venue start"], found["review start"]) == (7, 0)


def test_a_long_chain_is_made_at_once(wide: str) -> None:
    """Of 1,100 tasks one behind the other, and then in a ring."""
    with Workbench(wide) as w:
        p = w.project(days=3000)
        made: list[Task] = []
        for number in range(1100):
            made.append(p.task(f"t{number}", 2, after=made[-1:]))
        found = by_hand.made_by_hand(w.network)
        assert found["t0 start"] == 0 and found["t1099 end"] == 2200
        p.lag(made[-1], made[0], 0)
        assert by_hand.made_by_hand(w.network) == {}


def test_what_is_told_while_it_runs(wide: str) -> None:
    said: list[str] = []
    with Workbench(wide) as w:
        p = many(w, 1)
        best = w.least(p.end, progress=said.append)
    # (of what was told last the least that may be is no more than what was found)
    gaps = [
        re.findall(r"(\d+) is the least so far, and (\d+) the least that may be", it) for it in said
    ]
    pairs = [(int(found), int(bound)) for each in gaps for found, bound in each]
    assert best.value is not None and pairs
    assert all(bound <= best.value <= found for found, bound in pairs)


def test_what_was_done_stays_where_it_was(wide: str) -> None:
    with Workbench(wide) as w:
        p = many(w, 2)
        p.done(p.tasks["t0"], 0, 2, who=["cem", "dia"])
        p.today(4)
        p.progress(p.tasks["t4"], 2, 1)
        found = by_hand.made_by_hand(w.network)
        assert (found["t0 start"], found["t0 end"], found["t4 start"]) == (0, 2, 1)
        with Seeker(w.model, Clock(20, None)) as seeker:
            assert seeker.by_hand() is not None
