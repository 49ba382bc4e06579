"""Who works on what, day by day, how much of each resource is in use, and who is free."""

from collections.abc import Iterator, Sequence
from dataclasses import dataclass

from propbench.planning.calendar import date_said
from propbench.planning.schedule import Schedule
from propbench.questions.shown import Shown


@dataclass(frozen=True)
class Load:
    """A day of a plan: what each person works on, who is away, how much of each resource is in use,
    and who is free."""

    day: int
    works: dict[str, tuple[str, ...]]
    away: tuple[str, ...]
    uses: dict[str, int]
    free: tuple[str, ...]


class Loads(Shown, list[Load]):
    """The days of a schedule, from the first to its end."""

    complete = True
    _certificate = None

    def __init__(self, schedule: Schedule) -> None:
        """Those of a schedule."""
        super().__init__(_load(schedule, day) for day in range(schedule.end))
        self.schedule = schedule

    def headline(self) -> str:
        return f"{'1 day' if len(self) == 1 else f'{len(self)} days'} of work:"

    def heads(self) -> Sequence[str]:
        staff = self.schedule.staff
        return ("day", *staff.people, *staff.resources, "free")

    def rows(self) -> Sequence[Sequence[object]]:
        return [[*self._cells(load)] for load in self]

    def _cells(self, load: Load) -> Iterator[object]:
        calendar, staff = self.schedule.calendar, self.schedule.staff
        yield load.day if calendar is None else date_said(calendar.date_of(load.day))
        for person in staff.people:
            yield ("away",) if person in load.away else load.works[person]
        for resource, holds in staff.resources.items():
            yield "away" if resource in load.away else f"{load.uses[resource]} of {holds}"
        yield load.free


def _load(schedule: Schedule, day: int) -> Load:
    """What is done on a day. (What pauses is not worked on, and keeps what it uses.)"""
    staff = schedule.staff
    on = [each for each in schedule.by_date() if any(a <= day < b for a, b in each.parts)]
    works = {name: tuple(it.task for it in on if name in it.people) for name in staff.people}
    under_way = [each for each in schedule.entries if each.start <= day < each.end]
    uses = {
        name: sum(dict(each.uses).get(name, 0) for each in under_way) for name in staff.resources
    }
    away = tuple(dict.fromkeys(it.person for it in staff.aways if it.first <= day < it.last))
    busy = {name for each in under_way for name in each.people}
    free = tuple(name for name in staff.people if name not in busy and name not in away)
    return Load(day, works, away, uses, free)
