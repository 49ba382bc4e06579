"""The chain of a plan in few rows: tasks that somebody does one after the other are one stretch."""

from collections.abc import Sequence
from dataclasses import dataclass

from propbench.planning.chain import Link
from propbench.planning.schedule import Schedule
from propbench.showing import printable

# A chain of more tasks is told by stretches. Of more stretches so many are told of either end; and
# of the tasks of a stretch so many by name.
MOST_ROWS = 12
_FIRST, _LAST, _NAMED = 5, 6, 3


@dataclass(frozen=True)
class Stretch:
    """Tasks of a chain by date: one, or several that somebody does one after the other; or none of
    which more is told than how many they are, where `is_left`."""

    links: tuple[Link, ...]
    is_left: bool = False

    @property
    def tasks(self) -> tuple[str, ...]:
        """The tasks, by date."""
        return tuple(link.entry.task for link in self.links)

    @property
    def person(self) -> str:
        """Who does several, one after the other; "" for one task."""
        return self.links[1].busy[0] if len(self.links) > 1 and not self.is_left else ""

    @property
    def who(self) -> tuple[str, ...]:
        """Who does it."""
        return (self.person,) if self.person else self.links[0].entry.people

    @property
    def told(self) -> str:
        """The tasks in few words."""
        tasks = [printable(task) for task in self.tasks]
        if self.is_left:
            return f"({len(tasks)} tasks between)"
        if len(tasks) == 1:
            return tasks[0]
        if len(tasks) <= _NAMED:
            return f"{', '.join(tasks)} (in a row)"
        return f"{', '.join(tasks[: _NAMED - 1])} .. {tasks[-1]} ({len(tasks)} tasks in a row)"

    @property
    def waits(self) -> str:
        """What it waits for, and its tasks for else than the one before."""
        if self.is_left:
            return ""
        first, *others = self.links
        busy = f"{printable(self.person)}, busy with "
        words = [word for each in others for word in each.words if not word.startswith(busy)]
        return "; ".join(dict.fromkeys([*first.words, *words]))

    def ends(self, schedule: Schedule) -> Sequence[object]:
        """The first day and the last, in words."""
        if self.is_left:
            return ("", "")
        ends = [schedule.ends(link.entry) for link in self.links]
        return (ends[0][0], ends[-1][1])


def stretches_of(links: Sequence[Link]) -> list[Stretch]:
    """The rows by which a chain is told: its tasks where they are few."""
    if len(links) <= MOST_ROWS:
        return [Stretch((link,)) for link in links]
    found: list[list[Link]] = []
    by_last: dict[str, list[Link]] = {}
    for link in links:
        before = by_last.get(link.after[0]) if _is_next(link) else None
        if before is None or (len(before) > 1 and before[1].busy != link.busy):
            before = []
            found.append(before)
        else:
            del by_last[before[-1].entry.task]
        before.append(link)
        by_last[link.entry.task] = before
    made = [Stretch(tuple(each)) for each in found]
    if len(made) <= MOST_ROWS:
        return made
    between = tuple(link for each in made[_FIRST:-_LAST] for link in each.links)
    return [*made[:_FIRST], Stretch(between, is_left=True), *made[-_LAST:]]


def _is_next(link: Link) -> bool:
    """Whether a task waits for one other, since somebody is busy with that."""
    return len(link.after) == len(link.busy) == 1
