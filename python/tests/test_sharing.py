"""Tasks that share resources of a capacity: beside trying all starts, by the rule that tells when a
task may start beside others, and where it is said in parts."""

import random
from itertools import product

import pytest

from propbench import Workbench, maximum
from propbench.model import truths
from propbench.model.expressions import Truth
from propbench.model.meaning import holds
from propbench.model.nodes import Op, number
from propbench.model.sharing import Shared, TaskUse
from propbench.planning import Project
from propbench.words import MOST_BYTES

SEEDS = range(3)
DAYS = 5


class Drawn:
    """Four tasks of two resources, some behind others."""

    def __init__(self, seed: int) -> None:
        draw = random.Random(seed)
        self.long = [draw.randint(0, 3) for _ in range(4)]
        self.holds = [draw.randint(2, 4) for _ in range(2)]
        self.needs = [[draw.randint(0, most) for _ in self.long] for most in self.holds]
        self.before = [(i, j) for j in range(4) for i in range(j) if draw.random() < 0.2]

    def fits(self, starts: tuple[int, ...], free: int | None = None) -> bool:
        """Whether a plan keeps to all of it, but to what is free there may be of any."""
        ends = [start + long for start, long in zip(starts, self.long)]
        if max(ends) > DAYS or any(ends[i] > starts[j] for i, j in self.before):
            return False
        return all(
            sum(needs[it] for it in range(4) if starts[it] <= day < ends[it]) <= held
            for which, (held, needs) in enumerate(zip(self.holds, self.needs))
            for day in range(DAYS)
            if which != free
        )

    def all_plans(self, free: int | None = None) -> set[tuple[int, ...]]:
        """All plans that do."""
        every = product(range(DAYS + 1), repeat=4)
        return {starts for starts in every if self.fits(starts, free)}

    def project(self, w: Workbench) -> Project:
        """The tasks in a workbench."""
        p = w.project(days=DAYS)
        for which, held in enumerate(self.holds):
            p.resource(f"r{which}", held)
        for at, long in enumerate(self.long):
            after = [p.tasks[f"t{i}"] for i, j in self.before if j == at]
            uses = {f"r{which}": needs[at] for which, needs in enumerate(self.needs)}
            p.task(f"t{at}", long, after=after, uses=uses)
        return p


def plans_of(w: Workbench, p: Project) -> set[tuple[int, ...]]:
    """All plans of the workbench, by their starts."""
    starts = [task.start for task in p.tasks.values()]
    found = w.plans(starts, most=5000)
    assert found.complete
    return {tuple(int(str(it)) for it in each.values()) for each in found}


@pytest.mark.parametrize("is_at_once", [True, False])
@pytest.mark.parametrize("seed", SEEDS)
def test_all_plans_are_found_and_no_others(
    seed: int, is_at_once: bool, wide: str, monkeypatch: pytest.MonkeyPatch
) -> None:
    monkeypatch.setenv("PROPBENCH", wide)
    if not is_at_once:
        monkeypatch.setattr(truths, "_MOST_BESIDE", 0)
    drawn = Drawn(seed)
    known = drawn.all_plans()
    with Workbench() as w:
        p = drawn.project(w)
        assert plans_of(w, p) == known
        ends = [max(s + d for s, d in zip(starts, drawn.long)) for starts in known]
        best = w.least(p.end)
        assert best.value == min(ends, default=None) and best.proved
        w.kick(f"r0 holds {drawn.holds[0]}")
        assert plans_of(w, p) == drawn.all_plans(free=0)


def test_one_more_task_is_beside_all_others(wide: str, monkeypatch: pytest.MonkeyPatch) -> None:
    """Also where one was asked before, and once they pause."""
    monkeypatch.setenv("PROPBENCH", wide)
    with Workbench() as w:
        p = w.project(days=20)
        p.resource("hall", 2)
        for count in range(1, 6):
            task = p.task(f"t{count}", 2, uses="hall")
            assert w.least(task.end).value == 2
            last = w.number(f"last {count}", 0, 20)
            w.require(last == maximum([each.end for each in p.tasks.values()]))
            # (two at once)
            assert w.least(last).value == (count + 1) // 2 * 2
        assert w.least(p.end).value == 6
        p.away("hall", 1, 3, "cleaning")
        # (two pause over it)
        assert w.least(p.end).value == 8
        w.kick("hall holds 2")
        assert w.least(p.end).value == 4


def test_more_than_a_line_has_room_for(wide: str, monkeypatch: pytest.MonkeyPatch) -> None:
    monkeypatch.setenv("PROPBENCH", wide)
    for most in (MOST_BYTES, 200):
        monkeypatch.setattr(truths, "MOST_BYTES", most)
        with Workbench() as w:
            p = w.project(days=9)
            p.resource("hall", 3)
            for at in range(4):
                p.task(f"talk {at}", 3, uses="hall")
            told = [line for line in w.session.lines if line.startswith("attach cumulative")]
            assert len(told) == (4 if most == MOST_BYTES else 0)
            assert w.least(p.end).value == 6


@pytest.mark.parametrize("seed", SEEDS)
def test_what_it_means_and_its_parts_are_the_same(
    seed: int, wide: str, monkeypatch: pytest.MonkeyPatch
) -> None:
    monkeypatch.setenv("PROPBENCH", wide)
    draw = random.Random(seed)
    with Workbench() as w:
        cells = [w.number(f"x{at}", 0, 4) for at in range(6)]
        uses = [
            TaskUse(start.node, length.node, draw.randint(1, 3))
            for start, length in zip(cells[::2], cells[1::2])
        ]
        shared = Shared(draw.randint(1, 4), tuple(uses))
        room = shared.room()
        assert room.op is Op.ROOM and Shared.of(room) == shared
        for _ in range(200):
            points = {cell.declared: draw.randint(0, 4) for cell in cells}
            at = [(points[a.declared], points[b.declared]) for a, b in zip(cells[::2], cells[1::2])]
            known = all(
                sum(use.needs for use, (s, d) in zip(uses, at) if s <= day < s + d)
                <= shared.capacity
                for day in range(9)
            )
            assert holds(room, points) is known
            assert holds(shared.in_parts(), points) is known


def test_it_may_be_denied_and_be_one_of_several(wide: str, monkeypatch: pytest.MonkeyPatch) -> None:
    monkeypatch.setenv("PROPBENCH", wide)
    with Workbench() as w:
        starts = [w.number(f"s{at}", 0, 2) for at in range(3)]
        uses = [TaskUse(start.node, number(2), 1) for start in starts]
        room = Truth(Shared(2, tuple(uses)).room())
        is_full = w.truth("is full")
        w.require(is_full == ~room)
        found = w.plans([*starts, is_full], most=100)
        assert found.complete and len(found) == 27
        for each in found:
            *days, told = each.values()
            first = [int(str(it)) for it in days]
            runs = [sum(s <= day < s + 2 for s in first) for day in range(4)]
            assert told is (max(runs) > 2)
