"""What is wished for of a plan, in a planner's words: `review done by 13 March`, `review after
venue`, `review and venue not at once`, `ana does review`."""

import re
from collections.abc import Iterable, Sequence
from dataclasses import dataclass
from typing import TYPE_CHECKING

from propbench.model.expressions import Truth
from propbench.model.nodes import FALSE, TRUE
from propbench.nearby import near_names
from propbench.showing import quoted

if TYPE_CHECKING:
    from propbench.planning.project import Project

FORMS = (
    "`review done by 13 March`, `review not before 9 March`, `review on 9 March`, `ana after 9"
    " March`, `ana before 13 March`, `ana not on 9 March`, `review after venue`, `review 2 to 5"
    " days after venue`, `review and venue not at once`, `review together with venue`, `ana does"
    " review`, `ana away 3-7 March`, `cost at most 5000`"
)
# (of several that fit the first one counts, in the order in which they are read)
_DAYS = r"(\d{1,6})(?:\s+(or\s+more|to\s+(\d{1,6})))?\s+days?"
_AT_ONCE = r"(?:at\s+once|together|at\s+the\s+same\s+time)"


def _words(*parts: str) -> re.Pattern[str]:
    """Parts of a text with spaces between."""
    return re.compile(r"\s+".join(parts), re.I)


_COST = _words(r"(?:(.+?)\s+)?costs?", r"(?:at\s+most|no\s+more\s+than)", r"(\d{1,12})")
_APART = _words(r"(.+?)", r"(?:and\s+(.+?)\s+)?not", rf"{_AT_ONCE}(?:\s+(?:with|as)\s+(.+))?")
_TOGETHER = _words(r"(.+?)", r"(?:begins\s+)?together", r"with", r"(.+)")
_LAG = _words(
    r"(.+?)", rf"(?:begins\s+)?(?:(at\s+least|at\s+most)\s+)?(?:{_DAYS}\s+)?after", r"(.+)"
)
_ILL = r"(?:ill|sick|away|off|out|absent|on\s+leave|on\s+holiday)"
_AWAY = _words(r"(.+?)", rf"(?:is\s+)?{_ILL}", r"(.+)")
_DOES = _words(r"(.+?)", r"(does|doesn't\s+do|does\s+not\s+do)", r"(.+)")
_BY = _words(r"(.+?)", r"(?:is\s+)?(?:(?:done|over|finished|ready|ends?)\s+)?(?:by|until)", r"(.+)")
_FROM = _words(r"(.+?)", r"(?:is\s+)?(?:not\s+before|begins\s+from|from)", r"(.+)")
_BEFORE = _words(r"(.+?)", r"(?:is\s+)?(?:(?:done|over|finished)\s+)?before", r"(.+)")
_NOT_ON = _words(r"(.+?)", r"(?:is\s+)?not\s+on", r"(.+)")
_ON = _words(r"(.+?)", r"(?:(?:begins|starts|is)\s+)?on", r"(.+)")
_EVERY = ("all", "everything", "the plan")


@dataclass(frozen=True)
class Rule:
    """What holds between tasks, and who does them, under the premise `name`: of the sort "lag" with
    the least and the most days, "apart", "together", "does" or "does not"."""

    name: str
    sort: str
    first: str
    other: str
    days: tuple[int | None, int | None]
    weight: float


@dataclass(frozen=True)
class RuleSaid:
    """What a text says: a sort, the names in it, and the days or the number in it."""

    sort: str
    names: tuple[str, ...]
    rest: str = ""
    days: tuple[int | None, int | None] = (None, None)


def said_in(text: str, tasks: Sequence[str], people: Sequence[str]) -> RuleSaid:
    """What a text says of these tasks and people. Raises ValueError, with what would do."""
    reader = _Reading(text, tasks, people)
    for read in (
        reader.cost,
        reader.apart,
        reader.together,
        reader.lag,
        reader.away,
        reader.does,
        reader.by,
        reader.since,
        reader.before,
        reader.not_on,
        reader.on,
    ):
        found = read()
        if found is not None:
            return found
    raise ValueError(f"{quoted(text)} can't be read. Say {FORMS}")


class _Reading:
    """Reads one text in one way after the other."""

    def __init__(self, text: str, tasks: Sequence[str], people: Sequence[str]) -> None:
        self._text, self._tasks, self._people = " ".join(text.split()), tasks, people

    def cost(self) -> RuleSaid | None:
        """That all costs so much at the most, or a task does."""
        if found := _COST.fullmatch(self._text):
            return RuleSaid("cost", self._task_or_all(found[1] or "all"), found[2])
        return None

    def apart(self) -> RuleSaid | None:
        """That two tasks aren't done at once."""
        if (found := _APART.fullmatch(self._text)) and (found[2] or found[3]):
            return RuleSaid("apart", self._two(found[1], found[2] or found[3]))
        return None

    def together(self) -> RuleSaid | None:
        """That two tasks begin on one day."""
        if found := _TOGETHER.fullmatch(self._text):
            return RuleSaid("together", self._two(found[1], found[2]))
        return None

    def lag(self) -> RuleSaid | None:
        """That a task comes after another, with so many days between."""
        found = _LAG.fullmatch(self._text)
        if found is None:
            return None
        if found[3] is None and self._is_day(found[6]):
            return RuleSaid("after", (self._whom(found[1]),), found[6])
        names = self._two(found[1], found[6])
        if found[3] is None:
            return RuleSaid("lag", names, days=(0, None))
        number, upto = int(found[3]), found[5]
        if found[2] and found[2].lower().endswith("most"):
            return RuleSaid("lag", names, days=(0, number))
        most = int(upto) if upto else None
        exact = most is None and found[4] is None and found[2] is None
        return RuleSaid("lag", names, days=(number, number if exact else most))

    def away(self) -> RuleSaid | None:
        """That somebody is away."""
        found = _AWAY.fullmatch(self._text)
        if found and (who := _named(found[1], self._people)):
            return RuleSaid("away", (who,), found[2])
        return None

    def does(self) -> RuleSaid | None:
        """That somebody does a task, or doesn't."""
        found = _DOES.fullmatch(self._text)
        if found is None:
            return None
        sort = "does" if found[2].lower() == "does" else "does not"
        return RuleSaid(sort, (self._one(found[1], self._people), self._one(found[3], self._tasks)))

    def by(self) -> RuleSaid | None:
        """That a task, what somebody does, or all is done by a day."""
        if found := _BY.fullmatch(self._text):
            return RuleSaid("by", self._whom_or_all(found[1]), found[2])
        return None

    def since(self) -> RuleSaid | None:
        """That a task, or what somebody does, doesn't begin before a day."""
        if found := _FROM.fullmatch(self._text):
            return RuleSaid("from", (self._whom(found[1]),), found[2])
        return None

    def before(self) -> RuleSaid | None:
        """That a task comes before another, or that it, what somebody does, or all is done before a
        day."""
        found = _BEFORE.fullmatch(self._text)
        if found is None:
            return None
        if not self._is_day(found[2]):
            return RuleSaid("lag", self._two(found[2], found[1]), days=(0, None))
        return RuleSaid("before", self._whom_or_all(found[1]), found[2])

    def not_on(self) -> RuleSaid | None:
        """That a task isn't done on a day, or somebody does nothing then."""
        if found := _NOT_ON.fullmatch(self._text):
            return RuleSaid("not on", (self._whom(found[1]),), found[2])
        return None

    def on(self) -> RuleSaid | None:
        """That a task begins on a day."""
        if found := _ON.fullmatch(self._text):
            return RuleSaid("on", (self._one(found[1], self._tasks),), found[2])
        return None

    def _two(self, one: str, other: str) -> tuple[str, str]:
        return self._one(one, self._tasks), self._one(other, self._tasks)

    def _is_day(self, text: str) -> bool:
        """Whether a text is rather a day than a task: it has a number, and no task is like it."""
        return bool(re.search(r"\d", text)) and not near_names(text, self._tasks)

    def _whom(self, text: str) -> str:
        """The task, or who does some."""
        return self._one(text, [*self._tasks, *self._people])

    def _whom_or_all(self, text: str) -> tuple[str, ...]:
        """The same, none where all are meant."""
        if text.lower() in _EVERY and _named(text, self._tasks) is None:
            return ()
        return (self._whom(text),)

    def _task_or_all(self, text: str) -> tuple[str, ...]:
        """The task that is named, none where all are meant."""
        if text.lower() in _EVERY and _named(text, self._tasks) is None:
            return ()
        return (self._one(text, self._tasks),)

    def _one(self, text: str, names: Sequence[str]) -> str:
        found = _named(text, names)
        if found is None:
            near = near_names(text, names)
            hint = f" Did you mean {near[0]}?" if near else ""
            said = f"{quoted(self._text)}: nothing in the plan is called {quoted(text)}.{hint}"
            raise ValueError(said)
        return found


def _named(text: str, names: Iterable[str]) -> str | None:
    """The one of some names that a text is, whatever its capitals."""
    return next((name for name in names if name.casefold() == text.strip().casefold()), None)


def state_rule(project: "Project", rule: Rule) -> None:
    """States a rule in a project."""
    other = project.tasks[rule.other]
    if rule.sort in ("does", "does not"):
        does = _does(rule, project)
        said = does if rule.sort == "does" else ~does
        project.wish(said, rule.name, rule.name, weight=rule.weight)
        return
    one = project.tasks[rule.first]
    if rule.sort == "lag":
        project.lag(other, one, *rule.days, under=rule.name)
    elif rule.sort == "apart":
        apart = (one.end <= other.start) | (other.end <= one.start)
        project.wish(apart, rule.name, rule.name, weight=rule.weight)
    else:
        project.wish(one.start == other.start, rule.name, rule.name, weight=rule.weight)


def _does(rule: Rule, project: "Project") -> Truth:
    """That somebody does a task, which is sure of who does it in any case."""
    task = project.tasks[rule.other]
    if rule.first in task.may:
        return task.may[rule.first]
    return Truth(TRUE if rule.first in task.people else FALSE)
