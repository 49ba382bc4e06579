"""A plan that somebody works on: what is written down, the project that it makes, and what was done
before, to go back to."""

import re
from collections.abc import Callable, Collection, Mapping, Sequence
from contextlib import AbstractContextManager, nullcontext
from dataclasses import dataclass

from propbench.closing import Closing
from propbench.planning.brief import Brief, Given
from propbench.planning.draft import Draft, DraftRow, clean, with_people
from propbench.planning.planner import WeighedProject, best_of, goals_of, plan_of, taking
from propbench.planning.project import Project
from propbench.planning.reading import brief_of
from propbench.planning.schedule import Schedule
from propbench.planning.sheets import FieldError
from propbench.planning.what_ifs import suppose
from propbench.plain import PlainWorkbench
from propbench.questions.bounding import Optimum
from propbench.questions.clock import Progress
from propbench.questions.goals import Optima
from propbench.questions.shown import listed
from propbench.questions.trading import TradeOff
from propbench.workbench import Workbench

# So many repairs are looked for at the most, and so many conflicts shown.
_MOST, _SHOWN = 30, 3
# So many steps can be taken back.
_STEPS = 200
# A supposition may need so many days more.
_SPARE = 400


@dataclass(frozen=True)
class _Step:
    """What was before a change, and what the change was."""

    draft: Draft
    kicked: tuple[str, ...]
    says: str


@dataclass(frozen=True)
class WayOut:
    """Premises to give up, what to do for that in words, and what it costs."""

    premises: tuple[str, ...]
    says: tuple[str, ...]
    cost: float


@dataclass(frozen=True)
class Traded:
    """What an earlier end costs: of each plan the wishes that are `lost` by it."""

    found: TradeOff
    lost: tuple[tuple[str, ...], ...]


@dataclass(frozen=True)
class Hindrance:
    """Premises that can't all hold, of which none can be left out: those that may be given up, with
    what they say, and those of tasks."""

    wishes: tuple[tuple[str, str], ...]
    facts: tuple[str, ...]


@dataclass(frozen=True)
class Hindrances:
    """Some conflicts, the repairs, and whether these are all."""

    conflicts: tuple[Hindrance, ...]
    repairs: tuple[WayOut, ...]
    complete: bool


class OpenPlan(Closing):
    """A plan, with a workbench of its own, or that of a caller, which only premises are changed of.
    Changes are whole: one that can't be raises ValueError, and all is as it was."""

    def __init__(
        self,
        draft: Draft | None,
        make: Callable[[], Workbench],
        given: Given = Given(),
        plan: WeighedProject | None = None,
    ) -> None:
        """A plan that is written down so, for which workbenches are made; or one that is there.
        Raises SheetError where it can't be read."""
        self._make, self._given = make, given
        self._before: list[_Step] = []
        self._behind: list[_Step] = []
        self._is_own = plan is None
        # The last schedule that was found.
        self.last: Schedule | None = None
        self.draft = draft
        if plan is not None:
            self.plan: WeighedProject | None = plan
            self.workbench = plan.project.workbench
        else:
            self.draft = self._read(draft or Draft())
            self.workbench, self.plan = self._made(self.draft)

    def close(self) -> None:
        """Ends the workbench, where it is the plan's own."""
        if self._is_own:
            self.workbench.close()

    @property
    def project(self) -> Project | None:
        """The project, None where there is no task as yet."""
        return None if self.plan is None else self.plan.project

    @property
    def undoes(self) -> str:
        """What is taken back next, nothing where nothing is."""
        return self._before[-1].says if self._before else ""

    @property
    def redoes(self) -> str:
        """What is done again next, nothing where nothing is."""
        return self._behind[-1].says if self._behind else ""

    # --- changes ---

    def put(self, table: str, place: int | None, row: Mapping[str, object]) -> None:
        """Has a row stand in a table, in the place of another or behind all. Raises ValueError."""
        texts = dict(clean(table, row))
        if not texts:
            raise ValueError("there is nothing in this row")
        name = next(iter(texts.values()))
        says = f"{'add' if place is None else 'change'} {name}"
        self._change(self._draft().with_row(table, place, texts), says)

    def drop(self, table: str, place: int) -> None:
        """Takes a row away. Raises ValueError."""
        row = self._draft().without_row(table, place), self._draft().rows(table)[place]
        self._change(row[0], f"remove {next(iter(row[1].values()), 'it')}")

    def agree(self, schedule: Schedule | None) -> None:
        """Has a schedule be what was agreed on. Raises ValueError."""
        if self.draft is None:
            assert self.plan is not None
            self.plan.project.agree(schedule)
            return
        rows = [] if schedule is None else _rows_of(schedule)
        self._change(self.draft.with_rows("baseline", rows), "agree on this plan")

    def believe(self, premises: Sequence[str], is_believed: bool) -> None:
        """Brings premises in, or gives them up. Raises ValueError."""
        step = self._step(f"{'take in' if is_believed else 'give up'} {' and '.join(premises)}")
        for name in premises:
            (self.workbench.bring if is_believed else self.workbench.kick)(name)
        self._take_note()
        self._done(step)

    def undo(self) -> None:
        """Takes the last change back. Raises ValueError where there is none."""
        self._go(self._before, self._behind, "there is nothing to take back")

    def redo(self) -> None:
        """Does again what was taken back last. Raises ValueError where there is nothing."""
        self._go(self._behind, self._before, "there is nothing to do again")

    # --- questions ---

    def aside(self) -> AbstractContextManager[object]:
        """What is asked within leaves no cell behind in a workbench that is a caller's."""
        return nullcontext() if self._is_own else self.workbench.what_if()

    def best(
        self, seconds: float | None, progress: Progress | None = None
    ) -> Optimum | Optima | None:
        """The plan that ends soonest, as far as there is time; None where there is no task."""
        if self.plan is None:
            return None
        found = best_of(self.plan.project, seconds, progress)
        if found.plan is not None:
            self.last = self.plan.project.schedule(found)
        return found

    def hindrances(self, seconds: float | None, progress: Progress | None = None) -> Hindrances:
        """Why there is no plan, and what to give up, as far as there is time."""
        assert self.plan is not None
        w, facts = self.workbench, set(self.plan.facts)
        half = None if seconds is None else seconds / 2
        repairs = w.repairs(
            self.plan.weights_of(w.premises),
            keep=self.plan.facts,
            most=_MOST,
            seconds=half,
            progress=progress,
        )
        conflicts = w.conflicts(most=_MOST, seconds=half, progress=progress)
        found = [
            WayOut(each.names, tuple(map(self._doing, each.names)), each.cost) for each in repairs
        ]
        told = [self._hindrance(each.names, facts) for each in conflicts]
        shown = _shortest(told)[:_SHOWN]
        return Hindrances(tuple(shown), tuple(found), repairs.complete)

    def _doing(self, premise: str) -> str:
        """What to do where a premise is given up."""
        assert self.plan is not None
        takes = taking(self.plan.project, [premise])
        return f"get {listed(takes)}" if takes else f"give up {premise}"

    def _hindrance(self, names: Sequence[str], facts: Collection[str]) -> Hindrance:
        text = self.workbench.model.text
        wishes = tuple((name, text(name)) for name in names if name not in facts)
        return Hindrance(wishes, tuple(name for name in names if name in facts))

    def without(
        self, premises: Sequence[str], seconds: float | None, progress: Progress | None = None
    ) -> Optimum | Optima:
        """The plan that there would be without these premises."""
        assert self.plan is not None
        with self.workbench.what_if(kick=list(premises)):
            return best_of(self.plan.project, seconds, progress)

    def supposed(
        self, text: str, seconds: float | None, progress: Progress | None = None
    ) -> Optimum | Optima:
        """The plan that there would be if something were otherwise, as a planner says it. Raises
        ValueError for what can't be read."""
        if self.plan is None:
            raise ValueError("there is no task as yet")
        project = self.plan.project
        with self.workbench.what_if():
            suppose(project, text)
            return best_of(project, seconds, progress)

    def traded(self, goal: str, seconds: float | None, progress: Progress | None = None) -> Traded:
        """What an earlier end costs, by `cost`, or in `wishes` that are given up. Raises ValueError
        where there is no task as yet, and as `given_up`."""
        if self.plan is None:
            raise ValueError("there is no task as yet")
        plan = self.plan.in_force()
        with self.workbench.what_if():
            first, second = goals_of(plan, ["end", goal])
            found = self.workbench.trade_off(first, second, seconds=seconds, progress=progress)
            lost = [tuple(plan.wishes_lost(each.plan or {})) for each in found]
        return Traded(found, tuple(lost) if goal == "wishes" else ((),) * len(lost))

    # --- within ---

    def _draft(self) -> Draft:
        if self.draft is None:
            raise ValueError("this plan was stated in Python, and is changed there")
        return self.draft

    def _read(self, draft: Draft) -> Draft:
        """The draft, with a row for each who is named in it."""
        return with_people(draft, self._brief(draft)) if draft.rows("tasks") else draft

    def _brief(self, draft: Draft) -> Brief:
        return brief_of(draft.sheets(), self._given)

    def _made(self, draft: Draft) -> tuple[Workbench, WeighedProject | None]:
        """The project of a draft, in a workbench of its own."""
        made = self._make()
        try:
            if not draft.rows("tasks"):
                return made, None
            return made, plan_of(made, self._brief(draft), _SPARE)
        except BaseException:
            made.close()
            raise

    def _change(self, draft: Draft, says: str) -> None:
        """Goes over to another draft. Raises ValueError, in the words of who filled in a form."""
        step = self._step(says)
        try:
            draft = self._read(draft)
            made = self._made(draft)
        except FieldError as error:
            where = re.search(r"\((.*)\)", error.field.column)
            raise ValueError(f"{where[1]}: {error.says}" if where else error.says) from None
        self._replace(draft, made)
        self._done(step)

    def _replace(self, draft: Draft, made: tuple[Workbench, WeighedProject | None]) -> None:
        self.workbench.close()
        self.draft = draft
        self.workbench, self.plan = made

    def _step(self, says: str) -> _Step:
        return _Step(self.draft or Draft(), self._kicked(), says)

    def _kicked(self) -> tuple[str, ...]:
        believed = set(self.workbench.believed)
        return tuple(name for name in self.workbench.premises if name not in believed)

    def _done(self, step: _Step) -> None:
        self._before = [*self._before[-_STEPS:], step]
        self._behind.clear()

    def _take_note(self) -> None:
        """Has the draft say which premises are given up."""
        if self.draft is not None:
            rows = [{"premise": name} for name in self._kicked()]
            self.draft = self.draft.with_rows("given up", rows)

    def _go(self, here: list[_Step], there: list[_Step], why: str) -> None:
        """Goes back by a step, which is one forward then."""
        if not here:
            raise ValueError(why)
        step = here[-1]
        now = self._step(step.says)
        if self.draft is not None and not self.draft.is_but_for_given_up(step.draft):
            self._replace(step.draft, self._made(step.draft))
        for name in self.workbench.premises:
            is_in, was_in = name in self.workbench.believed, name not in step.kicked
            if is_in != was_in:
                (self.workbench.bring if was_in else self.workbench.kick)(name)
        self.draft = None if self.draft is None else step.draft
        here.pop()
        there.append(now)


def _shortest(found: Sequence[Hindrance]) -> list[Hindrance]:
    """Of conflicts those with the fewest wishes, and of several with the same ones the shortest."""
    kept: list[Hindrance] = []
    for each in sorted(found, key=lambda it: (len(it.wishes), len(it.facts))):
        if not any({*known.wishes} <= {*each.wishes} for known in kept):
            kept.append(each)
    return kept


def plan_in(workbench: PlainWorkbench) -> OpenPlan | None:
    """The plan of a workbench, None where it has no tasks, or those of several projects."""
    projects = workbench.projects if isinstance(workbench, Workbench) else ()
    if len(projects) != 1 or not projects[0].tasks:
        return None
    weights = projects[0].weights
    plan = WeighedProject(projects[0], weights, tuple(weights))
    return OpenPlan(None, Workbench, plan=plan)


def _rows_of(schedule: Schedule) -> list[DraftRow]:
    """A schedule as rows of a table."""
    found: list[DraftRow] = []
    for entry in schedule.by_date():
        if schedule.calendar is None:
            first, last = str(entry.start), str(entry.end)
        else:
            first, last = (day.isoformat() for day in schedule.dates(entry))
        row = {"task": entry.task, "who": ", ".join(entry.people), "from": first, "to": last}
        row |= {"how": entry.way or "", "cost": "" if entry.cost is None else str(entry.cost)}
        found.append({key: text for key, text in row.items() if text})
    return found
