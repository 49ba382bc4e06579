"""A plan as a page shows it: values for JSON, with all days in words."""

from collections.abc import Iterator, Sequence
from dataclasses import dataclass

from propbench.clock import Clock
from propbench.planning.calendar import MONTHS
from propbench.planning.chain import Chain
from propbench.planning.folded import FoldedChain, folded_of
from propbench.planning.order import SetUp
from propbench.planning.planner import WeighedProject
from propbench.planning.project import Project
from propbench.planning.resources import KeptWithin
from propbench.planning.schedule import Entry, Schedule
from propbench.planning.stretches import Stretch
from propbench.planning.tasks import (
    KeptApart,
    KeptOff,
    NotYet,
    Rate,
    TaskBy,
    TaskDone,
    TaskOrdered,
    TaskTold,
)
from propbench.questions.bounding import Optimum
from propbench.questions.goals import Optima
from propbench.questions.shown import said
from propbench.questions.trading import TradeOff
from propbench.showing import printable

# A chart has so many days behind the end; and which premises make that is looked for so long.
_BEHIND, _SECONDS = 2, 5.0
# The groups of premises, by what is stated under them, in the order in which they are shown.
WISHES, ABSENCES, PEOPLE, PROGRESS, TASKS, OTHERS = (
    "Wishes",
    "Absences",
    "People and resources",
    "How far it is",
    "Tasks",
    "Others",
)
_GROUPS: tuple[tuple[type[object] | tuple[type[object], ...], str], ...] = (
    (KeptOff, ABSENCES),
    ((KeptApart, KeptWithin, SetUp), PEOPLE),
    ((NotYet, TaskDone), PROGRESS),
    (Rate, PEOPLE),
    ((TaskTold, TaskBy, TaskOrdered), TASKS),
)


@dataclass(frozen=True)
class Gap:
    """How far the end of a plan is from what is proved: nothing ends before the day `bound`."""

    end: int
    bound: int | None
    proved: bool

    def __str__(self) -> str:
        """In words, as a planner reads it."""
        if self.proved:
            return "No plan ends sooner."
        if self.bound is None or self.bound >= self.end:
            return "Maybe there is one that ends sooner."
        days = self.end - self.bound
        return f"There may be one that ends sooner, by {days} day{'s' if days > 1 else ''} at most."


def gap_of(found: Optimum | Optima) -> Gap:
    """The gap of the end, of which the least was asked for."""
    step = found.steps[0] if isinstance(found, Optima) else found
    assert step.value is not None
    return Gap(step.value, step.bound, step.proved)


def schedule_seen(
    project: Project, schedule: Schedule, found: Optimum | Optima
) -> dict[str, object]:
    """A schedule with its chain, where its end is proved, and what was agreed on."""
    gap = gap_of(found)
    chain = folded_of(project, found, Clock(_SECONDS, None)) if gap.proved else None
    agreed = project.baseline
    before = {} if agreed is None else {entry.task: entry for entry in agreed.entries}
    days = max([schedule.end, *(entry.end for entry in before.values())]) + _BEHIND
    return {
        "headline": f"All is done {schedule.end_said()}",
        "says": _says(schedule),
        "gap": str(gap),
        "proved": found.proved,
        "days": [*_days(schedule, min(days, max(schedule.end, project.days)))],
        "rows": [
            _row(schedule, entry, before.get(entry.task), chain) for entry in schedule.by_date()
        ],
        "people": [*schedule.people, *schedule.staff.resources],
        "does": [{"who": who, "does": does} for who, does in schedule.doings()],
        "chain": [] if chain is None else [_stretch_seen(schedule, it) for it in chain.stretches],
        "left": None if chain is None else _left_seen(chain),
        "moved": "" if agreed is None else schedule.since(agreed).headline().rstrip(":"),
        "today": _today(project),
    }


def _says(schedule: Schedule) -> str:
    """How much work that is, in a sentence."""
    work = f"{schedule.end} {'day' if schedule.end == 1 else 'days'} of work"
    return f"{work}, at a cost of {schedule.cost}." if schedule.cost else f"{work}."


def _days(schedule: Schedule, days: int) -> Iterator[dict[str, object]]:
    """The days of a chart, those of which the date is told, and those behind days off."""
    calendar, before = schedule.calendar, None
    for day in range(days):
        if calendar is None:
            told = str(day) if day % 5 == 0 else ""
            yield {"label": told, "title": f"day {day}", "gap": False}
            continue
        date = calendar.date_of(day)
        is_behind = before is not None and (date - before).days > 1
        is_first = day == 0 or is_behind
        told = f"{date.day} {MONTHS[date.month - 1]}" if is_first else ""
        yield {"label": told, "title": schedule.days_said(day, day + 1), "gap": is_behind}
        before = date


def _row(
    schedule: Schedule, entry: Entry, before: Entry | None, chain: FoldedChain | None
) -> dict[str, object]:
    links = {} if chain is None else {link.entry.task: link.waits for link in chain.links}
    aways = [
        {"from": max(0, it.first), "to": it.last, "title": f"{it.person} away {it.written}"}
        for it in schedule.staff.aways
        if it.person in entry.needs and it.first < schedule.end + _BEHIND
    ]
    return {
        "task": entry.task,
        "who": list(entry.people),
        "uses": list(entry.used),
        "needs": [name for name, _ in entry.uses],
        "parts": entry.parts,
        "when": schedule.days_said(entry.start, entry.end),
        "way": entry.way or "",
        "cost": entry.cost or 0,
        "aways": aways,
        "before": None if before is None else [before.start, before.end],
        "chain": entry.task in links,
        "waits": links.get(entry.task, ""),
    }


def _stretch_seen(schedule: Schedule, stretch: Stretch) -> dict[str, object]:
    """A row of a chain, which may have several tasks."""
    ends = stretch.links[0].entry.start, stretch.links[-1].entry.end
    told = {"told": stretch.told, "tasks": list(stretch.tasks), "waits": stretch.waits}
    when = "" if stretch.is_left else schedule.days_said(*ends)
    return {**told, "when": when, "who": "" if stretch.is_left else said(stretch.who)}


def _left_seen(chain: FoldedChain) -> dict[str, object]:
    """What else makes the end: how many premises of which kind, and their names."""
    left = chain.left()
    kinds = [[kind, list(premises)] for kind, premises in chain.by_kind.items()]
    return {"says": f"and {left}" if left else "", "kinds": kinds}


def chain_seen(chain: Chain) -> Iterator[dict[str, object]]:
    """The tasks of a chain, in order."""
    for link in chain.links:
        entry = link.entry
        when = chain.schedule.days_said(entry.start, entry.end)
        who = said(entry.people)
        yield {"task": entry.task, "when": when, "who": who, "waits": link.waits}


def trade_seen(found: TradeOff, lost: Sequence[Sequence[str]]) -> dict[str, object]:
    """What an earlier end costs: of each plan its end, by date and in short for an axis, what it
    costs, the wishes that are lost by it, and the ways in which these plans differ."""
    rows: list[dict[str, object]] = []
    has_dates = any(each.schedule and each.schedule.date_said() for each in found)
    # (where some plan isn't proved the last column says so)
    first, last = 3 if has_dates else 2, None if all(it.proved for it in found) else -1
    for (end, value), row, names in zip(found.pairs, found.rows(), lost):
        done = str(row[2]) if has_dates else f"day {end}"
        short = " ".join(done.split()[1:3]) if has_dates else str(end)
        ways = [said(it) for it in row[first:last]]
        told = {"done": done, "short": short, "end": end, "value": value}
        rows.append({**told, "ways": ways, "lost": list(names)})
    differ = list(found.heads()[first:last])
    return {"says": _trade_said(found), "differ": differ, "rows": rows, "all": found.complete}


def _trade_said(found: TradeOff) -> str:
    """How many plans there are to trade, in a sentence."""
    if not found:
        return "There is no such plan." if found.complete else "No plan was found in time."
    if len(found) == 1 and found.complete:
        return "One plan is best in both."
    many = "" if len(found) == 1 else f"None of these {len(found)} plans is better in both. "
    return f"{many}{'There is no other choice.' if found.complete else 'There may be others.'}"


def _today(project: Project) -> int | None:
    from propbench.planning.progress import today_of

    found = today_of(project)
    return None if found is None else found[0]


def groups_of(plan: WeighedProject) -> dict[str, str]:
    """The group of each premise, by what is stated under it, or that it is wished for."""
    found: dict[str, str] = dict.fromkeys(plan.wishes, WISHES)
    for name, stated in plan.project.workbench.network.premises.statements.items():
        if name in found:
            continue
        of = [
            next((group for kinds, group in _GROUPS if isinstance(each, kinds)), WISHES)
            for each in stated
        ]
        found[name] = of[0] if of else OTHERS
    return found


def says_of(project: Project) -> dict[str, str]:
    """What each premise says, as a planner reads it; nothing where the name says it all."""
    model = project.workbench.model
    told = {name: model.text(name) for name in project.workbench.premises}
    plain = {*project.facts, *project.limits}
    return {name: "" if name in plain else printable(text) for name, text in told.items()}


def cells_by_task(project: Project) -> dict[str, list[str]]:
    """The cells of each task, which the network is drawn of."""
    return {
        printable(name): [task.start.name, task.end.name, task.days.name]
        for name, task in project.tasks.items()
    }
