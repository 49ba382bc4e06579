"""A Gantt chart as SVG: a bar for each task, those that make the end with a frame, and behind it
the room that it has over all plans."""

import os
from collections.abc import Mapping
from dataclasses import dataclass
from html import escape
from typing import TYPE_CHECKING

from propbench.outputs import write_as
from propbench.planning.calendar import MONTHS
from propbench.planning.exports import ENDINGS
from propbench.planning.rooms import ends_found
from propbench.planning.schedule import Entry, Schedule
from propbench.planning.tasks import Away
from propbench.questions.bounding import GREATEST, LEAST, Optimum
from propbench.questions.clock import Clock, Progress
from propbench.questions.model import Plan
from propbench.questions.planned import Planned
from propbench.questions.shown import listed
from propbench.questions.outcomes import NothingFits
from propbench.showing import printable

if TYPE_CHECKING:
    from propbench.planning.project import Project

# Sizes, in pixels: of a day, of a row, and of the names in front.
_DAY, _ROW, _NAMES, _HEAD = 14, 24, 170, 28
# So many letters of a name are shown.
_LETTERS = 26
_COLOURS = ("#3366aa", "#aa5533", "#338855", "#886699", "#997722", "#227788")


@dataclass(frozen=True)
class Chart:
    """A chart: a notebook shows it, and `svg` is its text. It is `complete` where there was time to
    find out how soon all can end, where that was asked for, and the room of each task."""

    svg: str
    complete: bool = True

    def _repr_svg_(self) -> str:
        return self.svg

    def save(self, path: str | os.PathLike[str]) -> None:
        """Writes the chart to a file, as SVG, whole or not at all. Raises OSError, and ValueError
        for a name that ends as if it were something else."""
        write_as(f"{self.svg}\n", path, ENDINGS["svg"])


def chart_of(
    project: "Project",
    plan: Planned | Plan | None,
    has_rooms: bool,
    seconds: float | None,
    progress: Progress | None,
) -> Chart:
    """The chart of a plan, or of the first that ends soonest, as far as there is time."""
    clock = Clock(seconds, progress)
    shown, is_best = (plan, True) if plan is not None else _soonest(project, has_rooms, clock)
    schedule = project.schedule(shown)
    rooms = rooms_of(project, clock) if has_rooms else {}
    is_all = is_best and (not has_rooms or len(rooms) == len(schedule.entries))
    return Chart(drawn(schedule, rooms, project.days), is_all)


def rooms_of(project: "Project", clock: Clock) -> dict[str, tuple[int, int]]:
    """For each task the first day on which it starts in any plan, and the last on which it ends, as
    far as there is time to find both."""
    wanted = {
        name: ((task.start.name, LEAST), (task.end.name, GREATEST))
        for name, task in project.tasks.items()
    }
    return {
        name: (first, last) for name, (first, last) in ends_found(project, wanted, clock).items()
    }


def _soonest(project: "Project", has_rooms: bool, clock: Clock) -> tuple[Optimum, bool]:
    """A plan that ends soonest, and whether that is proved; half the time is left for rooms where
    these are wanted. Raises NothingFits."""
    end, left = project.end, clock.seconds_left()
    seconds = left / 2 if left is not None and has_rooms else left
    best = project.workbench.least(end, seconds=seconds, progress=clock.progress)
    if best.plan is None:
        why = "there is no plan" if best.proved else "no plan was found in time"
        raise NothingFits(f"{why}, so none can be drawn")
    return best, best.proved


def drawn(schedule: Schedule, rooms: Mapping[str, tuple[int, int]], days: int) -> str:
    """The picture of a schedule over so many days, and of the rooms that are known."""
    width = _NAMES + days * _DAY + 24
    height = _HEAD + len(schedule.entries) * _ROW + 10
    return "\n".join(
        [
            f'<svg xmlns="http://www.w3.org/2000/svg" width="{width}" height="{height}" '
            f'viewBox="0 0 {width} {height}" '
            f'role="img" aria-label="Gantt chart" font-family="sans-serif" font-size="12">',
            *_days(schedule, days, height),
            *(
                part
                for row, entry in enumerate(schedule.entries)
                for part in _row(schedule, entry, rooms.get(entry.task), row)
            ),
            "</svg>",
        ]
    )


def _days(schedule: Schedule, days: int, height: int) -> list[str]:
    """Lines at the beginning of every fifth day, with its number or its date."""
    parts = []
    for day in range(0, days + 1, 5):
        x = _NAMES + day * _DAY
        told = str(day)
        if schedule.calendar is not None:
            date = schedule.calendar.date_of(day)
            told = f"{date.day} {MONTHS[date.month - 1]}"
        parts.append(f'<line x1="{x}" y1="{_HEAD - 6}" x2="{x}" y2="{height}" stroke="#ccc"/>')
        parts.append(f'<text x="{x}" y="{_HEAD - 10}" text-anchor="middle">{told}</text>')
    return parts


def _row(schedule: Schedule, entry: Entry, room: tuple[int, int] | None, row: int) -> list[str]:
    """The bar of a task, its room, and its name; where it makes the end, with what it waits for."""
    names, top = (*entry.people, *entry.used), _HEAD + row * _ROW
    makes_end, waits = entry.task in schedule.chain, schedule.chain.get(entry.task)
    who = f" ({', '.join(names)})" if names else ""
    told = printable(f"{entry.task}{who}")
    says = f"{escape(told)}: {_when(schedule, entry.start, entry.end)}"
    # (bold letters are wider)
    bold, most = (' font-weight="bold"', _LETTERS - 2) if makes_end else ("", _LETTERS)
    label = told if len(told) <= most else f"{told[: most - 1]}\u2026"
    parts = [f'<text x="4" y="{top + 16}"{bold}>{escape(label)}</text>']
    parts += [
        _bar((away.first, away.last), (top + 2, 20), "#eeddcc", _said_of(schedule, away))
        for away in schedule.staff.aways
        if away.person in entry.needs and away.last <= schedule.staff.days
    ]
    if room is not None:
        within = schedule.days_said(*room)
        says += f", in any plan {within if schedule.calendar else f'from {within}'}"
        parts.append(_bar(room, (top + 9, 6), "#bbbbbb"))
    if back := [
        away.person
        for away in schedule.staff.aways
        if away.last == entry.start and away.person in entry.needs
    ]:
        says += f"; it starts when {escape(listed(back))} is back"
    says += f"; it waits for {escape(waits)}" if waits else ""
    says += "; it makes the end" if makes_end else ""
    colour = "#555555"
    if entry.needs:
        known = (*schedule.people, *schedule.staff.resources)
        colour = _COLOURS[known.index(entry.needs[0]) % len(_COLOURS)]
    if entry.pauses:
        parts.append(_bar((entry.start, entry.end), (top + 11, 2), colour))
    return [*parts, *(_bar(part, (top + 4, 16), colour, says, makes_end) for part in entry.parts)]


def _said_of(schedule: Schedule, away: Away) -> str:
    """Who is away when."""
    return f"{escape(printable(away.person))} away: {_when(schedule, away.first, away.last)}"


def _when(schedule: Schedule, start: int, end: int) -> str:
    """The days from one to another."""
    said = schedule.days_said(start, end)
    return said if schedule.calendar else f"day {said}"


def _bar(
    days: tuple[int, int], lies: tuple[int, int], colour: str, says: str = "", framed: bool = False
) -> str:
    """A bar from one day to another, which lies at a height and is so high."""
    (start, end), (top, height) = days, lies
    x, width = _NAMES + start * _DAY, max(2, (end - start) * _DAY)
    title = f"<title>{says}</title>" if says else ""
    frame = ' stroke="#111" stroke-width="1.5"' if framed else ""
    return (
        f'<rect x="{x}" y="{top}" width="{width}" height="{height}" rx="2" fill="{colour}"'
        f"{frame}>"
        f"{title}</rect>"
    )
