"""Why a plan ends no sooner, in short: the chain of tasks that makes its end, how many others of
which kind stand behind it, and all of that on demand."""

from collections import Counter
from collections.abc import Mapping, Sequence
from typing import TYPE_CHECKING

from propbench.clock import Clock
from propbench.model.events import Statement
from propbench.planning.chain import Link, Walk
from propbench.planning.kinds import kind_of
from propbench.planning.order import SetUp
from propbench.planning.resources import KeptWithin
from propbench.planning.schedule import Entry, Schedule, steps_of
from propbench.planning.stretches import Stretch, stretches_of
from propbench.planning.tasks import KeptApart, KeptOff, TaskBy, TaskOrdered, TaskTold, Wished
from propbench.questions.bounding import LEAST, Optimum
from propbench.questions.needed import believing, needed_in
from propbench.questions.planned import Planned
from propbench.questions.shown import Shown, counted, several
from propbench.showing import printable
from propbench.tables import table

if TYPE_CHECKING:
    from propbench.planning.project import Project


class FoldedChain(Shown):
    """The chain of tasks that makes the end of a plan: `links` in order, of which each begins in
    this plan when what it waits for is over. By its `premises`, all together, nothing ends sooner.
    `behind(task)` are those of them that speak of a task of the chain, or of who does it; the
    `others` speak of none of these, and are printed by their kinds; `whole()` names all.

    >>> w = Workbench()
    >>> p = w.project(days=30, people="ana")
    >>> venue, review = p.task("venue", 3, who="ana"), p.task("review", 5, who="ana")
    >>> p.how().behind("venue")
    ('venue takes 3', 'ana does one thing at a time')
    """

    complete = True
    _certificate = None

    def __init__(
        self,
        schedule: Schedule,
        links: Sequence[Link],
        behind: Mapping[str, tuple[str, ...]],
        kinds: Mapping[str, str],
    ) -> None:
        """The chain in a schedule, with the premises behind each task, and all with their kinds."""
        self.schedule, self.links = schedule, tuple(links)
        self._kinds, self._behind = dict(kinds), dict(behind)

    @property
    def premises(self) -> tuple[str, ...]:
        """Because of which the plan ends no sooner.

        >>> w = Workbench()
        >>> p = w.project(days=30)
        >>> venue = p.task("venue", 3)
        >>> p.how().premises
        ('venue takes 3',)
        """
        return tuple(self._kinds)

    def behind(self, task: str) -> tuple[str, ...]:
        """The premises that speak of a task of the chain, or of who does it. Raises KeyError for
        another task.

        >>> w = Workbench()
        >>> p = w.project(days=30)
        >>> venue = p.task("venue", 3)
        >>> p.how().behind("venue")
        ('venue takes 3',)
        """
        return self._behind[task]

    @property
    def others(self) -> tuple[str, ...]:
        """The premises that speak of no task of the chain, nor of who does it.

        >>> w = Workbench()
        >>> p = w.project(days=30)
        >>> venue = p.task("venue", 3)
        >>> p.how().others
        ()
        """
        told = {premise for premises in self._behind.values() for premise in premises}
        return tuple(premise for premise in self.premises if premise not in told)

    @property
    def by_kind(self) -> dict[str, tuple[str, ...]]:
        """The others by the names of their kinds, as `lengths` and `wishes`.

        >>> w = Workbench()
        >>> p = w.project(days=30)
        >>> venue = p.task("venue", 3)
        >>> p.how().by_kind
        {}
        """
        found: dict[str, list[str]] = {}
        for premise in self.others:
            found.setdefault(several(self._kinds[premise]), []).append(premise)
        return {kind: tuple(premises) for kind, premises in found.items()}

    @property
    def stretches(self) -> list[Stretch]:
        """The chain in few rows."""
        return stretches_of(self.links)

    def headline(self) -> str:
        number = len(self.premises)
        by = f"{number} premise{'' if number == 1 else 's'}"
        return f"All is done {self.schedule.end_said()}, and no sooner by {by}. What makes the end:"

    def heads(self) -> Sequence[str]:
        return (*self.schedule.heads()[:2], "task", "who", "waits for", "premises")

    def rows(self) -> Sequence[Sequence[object]]:
        return [self._row(each) for each in self.stretches]

    def _row(self, stretch: Stretch) -> Sequence[object]:
        behind = {name for task in stretch.tasks for name in self._behind[task]}
        who = "" if stretch.is_left else stretch.who
        ends = stretch.ends(self.schedule)
        return (*ends, stretch.told, who, stretch.waits, len(behind))

    def left(self) -> str:
        """How many others there are of which kind, "" for none."""
        return counted(Counter(self._kinds[premise] for premise in self.others))

    def __str__(self) -> str:
        left = self.left()
        return "\n".join([super().__str__(), *([f"and {left}."] if left else [])])

    def _repr_html_(self) -> str:
        from html import escape

        kinds = "".join(
            f"<dt>{escape(kind)}</dt><dd>{escape(', '.join(map(printable, premises)))}</dd>"
            for kind, premises in self.by_kind.items()
        )
        left = f"<details><summary>and {self.left()}</summary><dl>{kinds}</dl></details>"
        return f"{super()._repr_html_()}{left if kinds else ''}"

    def whole(self) -> str:
        """All of it: each task of the chain with the premises behind it, and the others by their
        kinds.

        >>> w = Workbench()
        >>> p = w.project(days=30)
        >>> venue = p.task("venue", 3)
        >>> print(p.how().whole())
        All is done by day 3, and no sooner by 1 premise. What makes the end:
          what   premises
          venue  venue takes 3
        """
        told = [(link.entry.task, self._behind[link.entry.task]) for link in self.links]
        rows = [(name, each) for name, behind in (*told, *self.by_kind.items()) for each in behind]
        names = [
            "" if at and rows[at - 1][0] == name else name for at, (name, _) in enumerate(rows)
        ]
        lines = [(printable(name), printable(each)) for name, (_, each) in zip(names, rows)]
        return f"{printable(self.headline())}\n{table(('what', 'premises'), lines, '  ')}"


def folded_of(project: "Project", plan: Planned, clock: Clock) -> FoldedChain:
    """The chain that makes the end of a plan, by the premises that the program names, or by fewer,
    where these are enough without a search. Raises ValueError for what is no least end of the
    project that was proved."""
    best = _end_of(project, plan)
    schedule, w = project.schedule(plan), project.workbench
    with believing(w, best.because):
        premises = needed_in(w, best, clock.seconds_left()) or best.because
    stated = w.network.premises.statements
    links = Walk(w.network, project, schedule, premises).path()
    behind = {
        link.entry.task: tuple(
            name
            for name in premises
            if any(_speaks(each, link.entry) for each in stated.get(name, ()))
        )
        for link in links
    }
    kinds = {name: [kind_of(each) for each in stated.get(name, ())] for name in premises}
    return FoldedChain(
        schedule, links, behind, {name: (of or ["premise"])[0] for name, of in kinds.items()}
    )


def _end_of(project: "Project", plan: Planned) -> Optimum:
    """What is known of the end."""
    for step in steps_of(plan):
        if step.cell == project.end.name and step.sort == LEAST and step.proved:
            return step
    raise ValueError(
        printable(f"what is shown is why {project.end.name} is no less: ask for the least of it")
    )


def _speaks(each: Statement, entry: Entry) -> bool:
    """Whether a statement is one of a task, or of who does it."""
    if isinstance(each, TaskTold):
        return each.cell is each.project.tasks[entry.task].days.declared
    if isinstance(each, TaskBy):
        return each.task.name == entry.task
    if isinstance(each, TaskOrdered):
        return each.later.name == entry.task
    if isinstance(each, SetUp):
        kind = each.project.tasks[entry.task].kind
        return each.person in entry.needs and kind == each.kinds[1]
    if isinstance(each, KeptApart):
        return each.person in entry.needs
    if isinstance(each, KeptWithin):
        return each.resource in entry.needs
    if isinstance(each, KeptOff):
        return each.away.person in entry.people
    return isinstance(each, Wished) and each.speaks_of(entry.task, entry.needs)
