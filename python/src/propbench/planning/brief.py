"""What a planner wants: tasks, people, absences, wishes, and the days of the plan, which are
numbers here whether they were dates or not."""

from dataclasses import dataclass, field

from propbench.planning.calendar import Calendar
from propbench.planning.rules import Rule
from propbench.planning.who import AnyOf, Skilled

# What it costs to give something up where no weight says it: a wish, leave, that somebody does one
# thing at a time, or is set up.
WISH, LEAVE, HELP = 1.0, 5.0, 20.0


@dataclass(frozen=True)
class NamedWay:
    """A way to do a task, by the name that it has where there are several."""

    name: str
    days: int
    cost: int


@dataclass(frozen=True)
class TaskWanted:
    """A task of a table. It begins on the day `earliest` or later, and ends before `latest`; `done`
    are its first day and that by which it was over, where it was done, and `left` the days that are
    left of one under way, with that on which it `began`. `people` do it, and some of each of the
    `groups`; it `pauses` while they are away, `uses` so much of resources, and is of a `kind`."""

    name: str
    ways: tuple[NamedWay, ...]
    people: tuple[str, ...]
    after: tuple[str, ...]
    earliest: int | None
    latest: int | None
    done: tuple[int, int] | None = None
    groups: tuple[AnyOf | Skilled, ...] = ()
    pauses: bool = True
    uses: dict[str, int] = field(default_factory=dict)
    left: int | None = None
    began: int | None = None
    kind: str | None = None


@dataclass(frozen=True)
class SetupWanted:
    """The days in which somebody, or a machine, is set up from one kind of task to another, and
    what it costs to give that up."""

    person: str
    kinds: tuple[str, str]
    days: int
    weight: float


@dataclass(frozen=True)
class Leave:
    """Who is away from a day on, to that of the return."""

    person: str
    first: int
    back: int
    name: str
    weight: float


@dataclass(frozen=True)
class Wish:
    """What is wished for: of a task, of all that a `person` does or that uses a resource, or of all
    of them. A task that begins `on` a day doesn't later either, and isn't done in the days `off`.
    """

    name: str
    weight: float
    task: str | None = None
    earliest: int | None = None
    latest: int | None = None
    cost: int | None = None
    way: str | None = None
    is_on: bool = False
    person: str | None = None
    off: tuple[int, int] | None = None


@dataclass(frozen=True)
class Agreed:
    """A task of a schedule that was agreed on: its days, who does it, how, and what it costs."""

    task: str
    people: tuple[str, ...]
    start: int
    end: int
    way: str | None
    cost: int | None


@dataclass(frozen=True)
class Given:
    """What the command line says of a plan: it goes before what the tables say. The files that
    tables name lie in the `folder`."""

    start: str | None = None
    off: str | None = None
    days: int | None = None
    today: str | None = None
    folder: str = ""


@dataclass
class Brief:
    """All that tables say: of `resources` how much there is, and what it costs to have more, and of
    `rates` what they cost a day. Of who has days `off` there is the premise with these. What was
    `given_up` are premises, and the `baseline` is what was agreed on. `unread` are sheets that are
    none of a plan's."""

    calendar: Calendar | None = None
    days: int | None = None
    today: int | None = None
    people: dict[str, float] = field(default_factory=dict)
    skills: dict[str, tuple[str, ...]] = field(default_factory=dict)
    works: dict[str, tuple[str, ...]] = field(default_factory=dict)
    off: dict[str, tuple[str, tuple[int, ...]]] = field(default_factory=dict)
    resources: dict[str, tuple[int, float]] = field(default_factory=dict)
    rates: dict[str, int] = field(default_factory=dict)
    jobs: dict[str, TaskWanted] = field(default_factory=dict)
    leaves: list[Leave] = field(default_factory=list)
    wishes: list[Wish] = field(default_factory=list)
    rules: list[Rule] = field(default_factory=list)
    setups: list[SetupWanted] = field(default_factory=list)
    given_up: list[str] = field(default_factory=list)
    baseline: list[Agreed] = field(default_factory=list)
    unread: list[str] = field(default_factory=list)
