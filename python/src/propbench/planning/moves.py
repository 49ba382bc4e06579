"""What moved between two schedules of a plan."""

from collections.abc import Sequence
from dataclasses import dataclass

from propbench.planning.schedule import Entry, Schedule
from propbench.questions.shown import Shown, listed


@dataclass(frozen=True)
class Move:
    """A task as it was planned before and as it is now; None where there was, or is, no such."""

    before: Entry | None
    now: Entry | None

    @property
    def task(self) -> str:
        """The task's name."""
        found = self.now or self.before
        assert found is not None
        return found.task

    @property
    def later(self) -> int | None:
        """How many days later it ends now; less than none where that is sooner."""
        if self.now is None or self.before is None:
            return None
        return self.now.end - self.before.end


class Moves(Shown, list[Move]):
    """The tasks that are done at another time or in another way, by their days now."""

    complete = True
    _certificate = None

    def __init__(self, before: Schedule, now: Schedule) -> None:
        old = {entry.task: entry for entry in before.entries}
        there = {entry.task for entry in now.entries}
        moves = [Move(old.get(entry.task), entry) for entry in now.by_date()]
        moves += [Move(entry, None) for entry in before.by_date() if entry.task not in there]
        super().__init__(move for move in moves if _differs(move))
        self.before, self.now = before, now

    def headline(self) -> str:
        if not self:
            return "Nothing moved."
        days = self.now.end - self.before.end
        ends = "as soon"
        if days:
            ends = f"{_days(abs(days))} {'later' if days > 0 else 'sooner'}"
        tasks = "1 task" if len(self) == 1 else f"{len(self)} tasks"
        return f"{tasks} moved, and all is done {ends}:"

    def heads(self) -> Sequence[str]:
        return ("task", "before", "now", "days later")

    def rows(self) -> Sequence[Sequence[object]]:
        return [
            (
                move.task,
                _told(self.before, move.before, move.now),
                _told(self.now, move.now, move.before),
                move.later,
            )
            for move in self
        ]


def _told(schedule: Schedule, entry: Entry | None, other: Entry | None) -> str | None:
    """When and how a task is done, and by whom where that is somebody else at the other time."""
    if entry is None:
        return None
    is_same = other is None or other.people == entry.people
    return schedule.told_in_short(entry) + ("" if is_same else f", by {listed(entry.people)}")


def _differs(move: Move) -> bool:
    if move.before is None or move.now is None:
        return True
    return _when(move.before) != _when(move.now)


def _when(entry: Entry) -> tuple[object, ...]:
    return entry.start, entry.end, entry.way, frozenset(entry.people)


def _days(count: int) -> str:
    return "1 day of work" if count == 1 else f"{count} days of work"
