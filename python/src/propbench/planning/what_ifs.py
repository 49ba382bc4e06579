"""What might be otherwise in a plan, as planners say: `ana ill 3-7 March`, `review takes 8`."""

import re
from collections.abc import Iterable
from datetime import timedelta

from propbench.nearby import near_names
from propbench.planning.days import days_in
from propbench.planning.project import Project
from propbench.planning.resources import kept_within
from propbench.planning.tasks import TaskTold
from propbench.showing import quoted

_AWAY = re.compile(
    r"\s+(?:is\s+)?(?:ill|sick|away|off|out|absent|on\s+leave|on\s+holiday)\s+", re.I
)
_TAKES = re.compile(r"\s+takes\s+(\d{1,6})(?:\s+days?)?\s*", re.I)
_HOLDS = re.compile(r"\s+holds\s+(\d{1,6})\s*", re.I)
_LATE = re.compile(r"\s+(?:not\s+before|from|begins)\s+", re.I)
_WITHOUT = re.compile(r"\s*without\s+(.+)", re.I)
_FORMS = (
    "say `ana ill 3-7 March`, `review takes 8`, `review not before 9 March`, `hall holds 1` or"
    " `without in time`"
)


def suppose(project: Project, text: str) -> None:
    """States what is supposed. Raises ValueError for what can't be read or isn't there."""
    w = project.workbench
    if (without := _WITHOUT.fullmatch(text)) is not None:
        w.kick(_one_of(without[1].strip(), w.premises, text))
    elif (told := _begin(text, (*project.people, *project.resources), _AWAY)) is not None:
        project.away(told[0], *_days(project, told[1], text), under=f"what if {text}")
    elif (told := _begin(text, project.tasks, _LATE)) is not None:
        first, _ = _days(project, told[1], text)
        project.not_before(first, project.tasks[told[0]], under=f"what if {text}")
    elif (takes := _TAKES.search(text)) is not None:
        name = _one_of(text[: takes.start()].strip(), project.tasks, text)
        _take(project, name, int(takes[1]), text)
    elif (holds := _HOLDS.search(text)) is not None:
        name = _one_of(text[: holds.start()].strip(), project.resources, text)
        _hold(project, name, int(holds[1]), text)
    else:
        raise ValueError(f"{quoted(text)} can't be read: {_FORMS}")


def _begin(text: str, names: Iterable[str], words: re.Pattern[str]) -> tuple[str, str] | None:
    """The name in front of these words, and what stands behind them."""
    found = words.search(text)
    if found is None:
        return None
    before = text[: found.start()].strip()
    for name in names:
        if name.casefold() == before.casefold():
            return name, text[found.end() :].strip()
    return None if words is _AWAY and _LATE.search(text) else (_one_of(before, names, text), "")


def _one_of(name: str, names: Iterable[str], text: str) -> str:
    """The one of some names that is meant. Raises ValueError where there is none."""
    known = list(names)
    for each in known:
        if each.casefold() == name.casefold():
            return each
    near = near_names(name, known)
    hint = f"Did you mean {near[0]}?" if near else f"{_FORMS[0].upper()}{_FORMS[1:]}"
    raise ValueError(f"{quoted(text)}: nothing in the plan is called {quoted(name)}. {hint}")


def _days(project: Project, text: str, whole: str) -> tuple[int, int]:
    """The first of some days, and the day behind them."""
    if project.calendar is None:
        found = re.fullmatch(r"(?:days?\s+)?(\d{1,6})(?:\s*(?:-|to)\s*(\d{1,6}))?", text)
        if found is None:
            raise ValueError(f"{quoted(whole)}: the plan has no dates: write its days, as 5 to 8")
        return int(found[1]), int(found[2] or int(found[1]) + 1)
    days, calendar = days_in(text, project.calendar.start), project.calendar
    first = max(days.first, calendar.start)
    if days.last < calendar.start:
        raise ValueError(f"{quoted(whole)}: these days are before the plan begins")
    return calendar.day_of(first), calendar.day_of(days.last + timedelta(days=1))


def _hold(project: Project, name: str, holds: int, text: str) -> None:
    """There is so much of a resource, in place of what there is."""
    w = project.workbench
    for said in kept_within(project, w.network.events):
        if said.resource == name and said.premise in w.believed:
            w.kick(said.premise)
    project.resource(name, holds, under=f"what if {text}")


def _take(project: Project, name: str, days: int, text: str) -> None:
    """A task takes so many days, in place of those that it takes."""
    w, task = project.workbench, project.tasks[name]
    told = [
        each.premise
        for each in w.network.events
        if isinstance(each, TaskTold) and each.cell is task.days.declared and each.premise
    ]
    if not told:
        raise ValueError(
            f"{quoted(text)}: {name} is done in one of several ways: each says its days"
        )
    for premise in told:
        w.kick(premise)
    if days > project.days:
        raise ValueError(
            f"{quoted(text)}: the plan has {project.days} days: give it more by --days"
        )
    w.tell(f"what if {text}", task.days, days)
