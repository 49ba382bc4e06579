"""Results that have a plan: where it is one of tasks, it is shown as a schedule."""

import os
from typing import Protocol

from propbench.questions.shown import Shown, said
from propbench.showing import printable
from propbench.tables import table


class Scheduled(Protocol):
    """A plan as those read it who carry it out."""

    @property
    def told(self) -> frozenset[str]:
        """The cells and choices of which it tells the values."""
        ...

    def date_said(self) -> str | None:
        """The date on which all is done, in words, None where there are no dates."""
        ...

    def to_csv(self, path: str | os.PathLike[str] | None = None) -> str:
        """The schedule for a spreadsheet."""
        ...

    def to_ics(self, path: str | os.PathLike[str] | None = None, *, who: str | None = None) -> str:
        """The schedule for a calendar."""
        ...

    def to_html(self, path: str | os.PathLike[str] | None = None, title: str = "Schedule") -> str:
        """The schedule as a page."""
        ...

    def to_svg(self, path: str | os.PathLike[str] | None = None) -> str:
        """The schedule as a picture."""
        ...

    def _repr_html_(self) -> str:
        ...


class Planned(Shown):
    """A result with a plan. Where the workbench has one project, and so the plan a `schedule`, it
    prints as that, with what else is in the plan below it."""

    schedule: Scheduled | None

    def __str__(self) -> str:
        if self.schedule is None:
            return super().__str__()
        lines = [self.headline(), str(self.schedule)]
        if rest := self._rest(self.schedule):
            lines.append(table(self.heads(), rest, "  "))
        return "\n".join(lines)

    def __repr__(self) -> str:
        return str(self)

    def _repr_html_(self) -> str:
        if self.schedule is None:
            return super()._repr_html_()
        from html import escape

        return f"<p>{escape(printable(self.headline()))}</p>{self.schedule._repr_html_()}"

    def _rest(self, schedule: Scheduled) -> list[list[str]]:
        """The rows that the schedule doesn't tell."""
        return [[said(it) for it in row] for row in self.rows() if row[0] not in schedule.told]

    def to_csv(self, path: str | os.PathLike[str] | None = None) -> str:
        """The schedule for a spreadsheet, a row for each task, written to a file where one is
        named; and its text.

        >>> w = Workbench()
        >>> p = w.project(days=30, start="2026-03-02", off="sat sun", people="ana")
        >>> venue, review = p.task("venue", 3, who="ana"), p.task("review", 5, who="ana")
        >>> "venue" in w.least(p.end).to_csv()
        True
        """
        return self._scheduled().to_csv(path)

    def to_ics(self, path: str | os.PathLike[str] | None = None, *, who: str | None = None) -> str:
        """The schedule for a calendar (iCalendar), all of it, or what one person does.

        >>> w = Workbench()
        >>> p = w.project(days=30, start="2026-03-02", off="sat sun", people="ana")
        >>> venue, review = p.task("venue", 3, who="ana"), p.task("review", 5, who="ana")
        >>> "venue" in w.least(p.end).to_ics()
        True
        """
        return self._scheduled().to_ics(path, who=who)

    def to_html(self, path: str | os.PathLike[str] | None = None, title: str = "Schedule") -> str:
        """The schedule as one page for a browser and a printer, with what makes its end where it is
        proved to end soonest.

        >>> w = Workbench()
        >>> p = w.project(days=30, start="2026-03-02", off="sat sun", people="ana")
        >>> venue, review = p.task("venue", 3, who="ana"), p.task("review", 5, who="ana")
        >>> "venue" in w.least(p.end).to_html()
        True
        """
        return self._scheduled().to_html(path, title)

    def to_svg(self, path: str | os.PathLike[str] | None = None) -> str:
        """The schedule as a Gantt chart; where it is proved to end soonest what makes its end has a
        frame, and tells what it waits for.

        >>> w = Workbench()
        >>> p = w.project(days=30, start="2026-03-02", off="sat sun", people="ana")
        >>> venue, review = p.task("venue", 3, who="ana"), p.task("review", 5, who="ana")
        >>> "venue" in w.least(p.end).to_svg()
        True
        """
        return self._scheduled().to_svg(path)

    def _scheduled(self) -> Scheduled:
        if self.schedule is None:
            raise ValueError(
                "this is no schedule: it has no plan, or there is no project, or there are several,"
                " as of which p.schedule(..) gives one"
            )
        return self.schedule
