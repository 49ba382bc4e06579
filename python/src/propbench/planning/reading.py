"""Reads what a planner wants out of tables.

Each text is judged where it stands, so that what can't be taken is told by sheet, row and column.
"""

import re
from collections.abc import Callable, Iterable, Iterator, Sequence
from dataclasses import replace
from datetime import date, timedelta
from os.path import splitext

from propbench.nearby import near_names
from propbench.planning.brief import (
    HELP,
    LEAVE,
    WISH,
    Agreed,
    Brief,
    Given,
    TaskWanted,
    Leave,
    NamedWay,
    SetupWanted,
    Wish,
)
from propbench.planning.calendar import Calendar, date_said
from propbench.planning.calendar_files import beside, holidays, is_file
from propbench.planning.days import date_in, days_in
from propbench.planning.headings import (
    ABSENCES,
    BASELINE,
    GIVEN_UP,
    PEOPLE,
    PLAN,
    SETUPS,
    SORTS,
    TASKS,
    WISHES,
    rows_of,
)
from propbench.planning.rules import Rule, RuleSaid, said_in
from propbench.planning.sheets import Field, Sheet, SheetError
from propbench.planning.who import AnyOf, Skilled
from propbench.questions.shown import listed
from propbench.showing import cut, printable, said_of

# The fields of a row by their columns.
Fields = dict[str, Field]
# So many names are listed for somebody who has written another.
_MOST = 12
# A date before that names no year.
_FIRST_YEAR = 1900
_WEEKDAYS = ("mon", "tue", "wed", "thu", "fri", "sat", "sun")
_BETWEEN = re.compile(r"[,;\n]")
_WHOLE = re.compile(r"\n")
_BETWEEN_PEOPLE = re.compile(r"[,;\n&+]|\band\b")
# Some of several people, as `2 of Ana, Ben, Cem`, or of those who can do something.
_SOME = re.compile(r"\s*(?:(?:(\d{1,3})|one|any|either)\s+of|either)\s+(.+)", re.I | re.S)
_ABLE = re.compile(r"\s*(?:(\d{1,3})\s+)?skilled\s+in\s+(.+)", re.I | re.S)
_OR = re.compile(r"\bor\b", re.I)
# What makes one name of what may be meant for several: one of somebody known, with a mark, or all.
_MARK = re.compile(r"[/|]")
_GLUE = re.compile(r"[/|\s]+")
# So much of a resource, as `2 crew`.
_MANY = re.compile(r"(\d{1,6})\s+(.+)", re.S)
_HOLDS = "write how many there are under `holds`, in the table of people"
_SET_UP = {
    "from": "of which kind the task before is",
    "to": "of which kind the task behind it is",
    "days": "how many days lie between",
}


def brief_of(sheets: Sequence[Sheet], given: Given) -> Brief:
    """What the tables say. Raises SheetError where something can't be taken."""
    # (a new file has empty sheets, which nobody has written)
    written = [sheet for sheet in sheets if sheet.rows]
    if not written:
        raise SheetError("there is nothing in these sheets: write tasks, with their days")
    sorts = sorted_sheets(written)
    reader = _Reader(Brief(), given.folder)
    reader.read_plan(sorts.get("plan"), given)
    reader.read_people(sorts.get("people"))
    reader.read_tasks(sorts["tasks"])
    reader.read_setups(sorts.get("setups"))
    reader.read_absences(sorts.get("absences"))
    reader.read_wishes(sorts.get("wishes"))
    reader.read_given_up(sorts.get("given up"))
    reader.read_baseline(sorts.get("baseline"))
    others = [sheet.name for sheet in written if sheet not in sorts.values()]
    reader.brief.unread = [name for name in others if name not in reader.files]
    return reader.brief


def sorted_sheets(sheets: Sequence[Sheet]) -> dict[str, Sheet]:
    """The sheets by what they tell. One alone tells the tasks, whatever it is called."""
    found: dict[str, Sheet] = {}
    for sheet in sheets:
        for sort, called in SORTS.items():
            if sheet.name.strip().lower() in called:
                if sort in found:
                    raise SheetError(
                        f"{printable(sheet.name)} and {printable(found[sort].name)} both tell the"
                        f" {sort}: join them"
                    )
                found[sort] = sheet
    if len(sheets) == 1:
        return {"tasks": sheets[0]}
    if "tasks" not in found:
        names = listed([sheet.name for sheet in sheets])
        raise SheetError(f"none of the sheets {names} is called `tasks`")
    return found


class _Reader:
    """Reads tables one after the other: each may speak of those before it."""

    def __init__(self, brief: Brief, folder: str) -> None:
        self.brief, self._folder = brief, folder
        # Whether people are those of a table, and no others.
        self._is_closed = False
        # Where each of them is named first, without a table.
        self._named: dict[str, Field] = {}
        # The files of days off that are named, without their endings.
        self.files: set[str] = set()

    # --- the days ---

    def read_plan(self, sheet: Sheet | None, given: Given) -> None:
        """When the plan begins, which days are off, and how many there are."""
        rows = list(rows_of(sheet, PLAN)) if sheet else []
        starts = [row["start"] for row in rows if "start" in row]
        days = [_whole(row["days"], 1) for row in rows if "days" in row]
        off = [row["off"] for row in rows if "off" in row and given.off is None]
        today = [row["today"] for row in rows if "today" in row]
        if starts[1:]:
            raise starts[1].wrong("the plan begins once: there is a start above")
        start = _start(given.start) if given.start else None
        if start is None and starts:
            start = _judged(starts[0], _start)
        if start is not None:
            self.brief.calendar = self._calendar(start, given.off, off)
        elif off:
            raise off[0].wrong("days off need a start of the plan: add a column `start`")
        elif given.off:
            raise ValueError("days off need a start of the plan: --start 2026-03-02")
        if given.today is not None:
            self.brief.today = self._day(Field(given.today, "the command line", 1, "--today"))
        elif today:
            self.brief.today = self._day(today[0])
        self.brief.days = given.days
        if given.days is None and days:
            self.brief.days = days[0]

    def _calendar(self, start: date, given: str | None, off: Sequence[Field]) -> Calendar:
        """The days of a plan from its start on."""
        if given is not None:
            return Calendar.of(start, self._days_off(given, start, ""))
        found: list[str | date] = []
        for each in off:
            try:
                found += self._days_off(each.text, start, self._folder)
                Calendar.of(start, found)
            except (ValueError, OSError) as error:
                raise each.wrong(said_of(error)) from None
        return Calendar.of(start, found)

    def _days_off(self, text: str, start: date, folder: str) -> list[str | date]:
        """Weekdays, dates and files of such: `sat sun, 3 April, holidays.ics`."""
        found: list[str | date] = []
        for part in (each.strip() for each in _BETWEEN.split(text)):
            weekdays = [_weekdays(word) for word in part.lower().split()]
            if is_file(part):
                found += holidays(beside(folder, part))
                self.files.add(splitext(part)[0])
            elif all(weekdays):
                found += [day for days in weekdays for day in days]
            else:
                found.append(date_in(part, start))
        return found

    def _day(self, given: Field, is_within: bool = False) -> int:
        """The number of a day; of a date that is within, that of the day behind it."""
        calendar = self.brief.calendar
        if calendar is None:
            return _whole(given, 0, "a day of the plan, as 5; dates need a `start` of the plan")
        start = calendar.start
        found = _judged(given, lambda text: date_in(text, start))
        if found < start:
            raise given.wrong(f"the plan begins on {date_said(start)}")
        return calendar.day_of(found + timedelta(days=1) if is_within else found)

    # --- the rows ---

    def read_people(self, sheet: Sheet | None) -> None:
        """Who there is; without a table all that the tasks name."""
        if sheet is None:
            return
        self._is_closed = True
        for row in rows_of(sheet, PEOPLE):
            person = _first(row, "person")
            if person.text in self.brief.people or person.text in self.brief.resources:
                raise person.wrong(f"`{cut(person.text)}` stands here twice")
            if "cost" in row:
                self.brief.rates[person.text] = _whole(row["cost"], 0)
            if "holds" in row:
                self._read_resource(person.text, row)
                continue
            self.brief.people[person.text] = _weight(row, HELP)
            if "skills" in row:
                self.brief.skills[person.text] = tuple(_split(row["skills"], _BETWEEN))
            self._read_calendar(person.text, row)

    def _read_resource(self, name: str, row: Fields) -> None:
        """So much there is of what several tasks may use at once."""
        self.brief.resources[name] = _whole(row["holds"], 1), _weight(row, HELP)
        if "skills" in row:
            raise row["skills"].wrong("what `holds` so many is no person, and has no skills")
        self._read_calendar(name, row)

    def _read_calendar(self, name: str, row: Fields) -> None:
        """When somebody works, and which days are off."""
        if "works" in row:
            self.brief.works[name] = self._works(row["works"])
        if "off" in row:
            self._read_off(name, row["off"])

    def _read_off(self, name: str, given: Field) -> None:
        """The days off of somebody: dates, and files of such."""
        calendar = self.brief.calendar
        if calendar is None:
            raise given.wrong("days off need a start of the plan: --start 2026-03-02")
        try:
            days = self._days_off(given.text, calendar.start, self._folder)
        except (ValueError, OSError) as error:
            raise given.wrong(said_of(error)) from None
        if weekdays := [day for day in days if isinstance(day, str)]:
            raise given.wrong(f"{listed(weekdays)}: say under `works` on which weekdays one works")
        spans = calendar.spans(day for day in days if isinstance(day, date))
        numbers = (day for first, back in spans for day in range(first, back))
        self.brief.off[name] = f"{name} off {given.text}", tuple(numbers)

    def _works(self, given: Field) -> tuple[str, ...]:
        """The weekdays on which somebody works."""
        if self.brief.calendar is None:
            raise given.wrong("weekdays need a start of the plan: --start 2026-03-02")
        found: list[str] = []
        for word in re.split(r"[,;\s]+", given.text.lower()):
            if not (days := _weekdays(word)):
                raise given.wrong(f"`{cut(word)}` is no weekday: write mon, tue, wed")
            found += days
        return tuple(dict.fromkeys(found))

    def read_tasks(self, sheet: Sheet) -> None:
        """The tasks; rows of one task are the ways in which it may be done."""
        rows: dict[str, list[Fields]] = {}
        for row in rows_of(sheet, TASKS):
            rows.setdefault(_first(row, "task").text, []).append(row)
        if not rows:
            raise SheetError(f"{printable(sheet.name)}: there is no task below the headings")
        jobs = {name: self._job(name, own) for name, own in rows.items()}
        for own in rows.values():
            for row in own:
                _known(row.get("after"), _BETWEEN, jobs, "task")
        self._check_apart()
        self.brief.jobs = _ordered(jobs, rows)

    def _job(self, name: str, rows: Sequence[Fields]) -> TaskWanted:
        after = _once(rows, "after")
        earliest, latest = _once(rows, "earliest"), _once(rows, "latest")
        people, groups = self._doers(_once(rows, "who"))
        pauses, kind, told = _once(rows, "pauses"), _once(rows, "kind"), self._left(rows)
        done = None if told else self._done(_once(rows, "started"), _once(rows, "finished"))
        left, began = told or (None, None)
        return TaskWanted(
            name,
            tuple(_ways(name, rows)),
            tuple(people),
            tuple(_split(after, _BETWEEN)),
            None if earliest is None else self._day(earliest),
            None if latest is None else self._day(latest, True),
            done,
            tuple(groups),
            pauses is None or _yes(pauses),
            self._uses(_once(rows, "uses")),
            left,
            began,
            None if kind is None else kind.text,
        )

    def _left(self, rows: Sequence[Fields]) -> tuple[int, int | None] | None:
        """Of a task under way the days that are left, and on which it began, where that is told."""
        left, started = _once(rows, "left"), _once(rows, "started")
        if left is None:
            return None
        if (finished := _once(rows, "finished")) is not None:
            raise finished.wrong("of what is finished no days are left")
        if self.brief.today is None:
            raise left.wrong("say what day it is, by --today 2026-03-09, for these are left then")
        return _whole(left, 0), None if started is None else self._day(started)

    def _uses(self, given: Field | None) -> dict[str, int]:
        """How much a task uses of resources: `hall; 2 crew`."""
        found: dict[str, int] = {}
        for text in _split(given, _BETWEEN_PEOPLE):
            many = _MANY.fullmatch(text)
            name, number = (many[2], int(many[1])) if many else (text, 1)
            if given is not None and not self._is_closed:
                self.brief.resources.setdefault(name, (1, HELP))
            _known(given and replace(given, text=name), _WHOLE, self.brief.resources, "resource")
            holds = self.brief.resources[name][0]
            if given is not None and not 0 < number <= holds:
                raise given.wrong(f"there is {holds} of `{cut(name)}`: {_HOLDS}")
            found[name] = number
        return found

    def _doers(self, given: Field | None) -> tuple[list[str], list[AnyOf | Skilled]]:
        """Who does a task: all who are named, or some: `Ana or Ben`, `2 of Ana, Ben, Cem`, `skilled
        in welding`; several of these with a semicolon between, those who are named in front."""
        people: list[str] = []
        groups: list[AnyOf | Skilled] = []
        for part in _parts(given.text) if given else ():
            if given is not None:
                self._take_doers(replace(given, text=part), people, groups)
        return list(dict.fromkeys(people)), groups

    def _take_doers(self, given: Field, people: list[str], groups: list[AnyOf | Skilled]) -> None:
        """Takes in one part of who does a task."""
        if able := _ABLE.fullmatch(given.text):
            skills = {skill for has in self.brief.skills.values() for skill in has}
            wanted = _known(replace(given, text=able[2]), _BETWEEN_PEOPLE, skills, "skill")
            groups.append(Skilled(_number(given, able[1]), tuple(wanted)))
            return
        some = _SOME.fullmatch(given.text)
        if not (some or _OR.search(given.text)):
            people += self._people(given)
            return
        names = self._people(replace(given, text=_OR.sub(",", some[2] if some else given.text)))
        number = _number(given, some[1] if some else None)
        if number > len(names):
            raise given.wrong(f"there are only {len(names)} of them")
        groups.append(AnyOf(number, tuple(names)))

    def _done(self, started: Field | None, finished: Field | None) -> tuple[int, int] | None:
        """When a task was done, where both its ends are told."""
        if started is None or finished is None:
            told = started or finished
            if told is not None:
                if started:
                    raise told.wrong("say `finished` too, or how many days are `left`")
                raise told.wrong("say `started` too")
            return None
        first, back = self._day(started), self._day(finished, True)
        if back < first:
            raise finished.wrong("it was over before it began")
        return first, back

    def _people(self, given: Field | None) -> list[str]:
        if self._is_closed:
            return _known(given, _BETWEEN_PEOPLE, self.brief.people, "person")
        people = _split(given, _BETWEEN_PEOPLE)
        for person in people:
            self.brief.people.setdefault(person, HELP)
            if given is not None:
                self._named.setdefault(person, given)
        return people

    def _check_apart(self) -> None:
        """Raises SheetError where several people were told so that they are one with all names."""
        for name, given in self._named.items():
            parts = [part for part in _GLUE.split(name) if part]
            enough = any if _MARK.search(name) else all
            if parts[1:] and enough(part in self.brief.people for part in parts):
                raise given.wrong(
                    f"`{cut(name)}` is one name: write `{cut(', '.join(parts))}` for all of them, "
                    f"`{cut(' or '.join(parts))}` for one, or list it in a table `people`"
                )

    def read_setups(self, sheet: Sheet | None) -> None:
        """In how many days who is set up from one kind of task to another."""
        told = dict.fromkeys(job.kind for job in self.brief.jobs.values())
        kinds = [kind for kind in told if kind is not None]
        for row in rows_of(sheet, SETUPS) if sheet else ():
            person = _first(row, "person")
            _known(person, _WHOLE, (*self.brief.people, *self.brief.resources), "person")
            holds = self.brief.resources.get(person.text, (1, HELP))[0]
            if holds > 1:
                raise person.wrong(f"there are {holds}, and set up is what there is one of")
            for column in ("from", "to", "days"):
                if column not in row:
                    raise person.wrong(f"say under `{column}` {_SET_UP[column]}")
            for column in ("from", "to"):
                _known(row[column], _WHOLE, kinds, "kind of task")
            pair = row["from"].text, row["to"].text
            if (person.text, pair) in ((it.person, it.kinds) for it in self.brief.setups):
                raise row["from"].wrong("another row says how many days lie between these")
            days, weight = _whole(row["days"], 0), _weight(row, HELP)
            self.brief.setups.append(SetupWanted(person.text, pair, days, weight))

    def read_absences(self, sheet: Sheet | None) -> None:
        """Who is away when, each by a premise of its own."""
        for row in rows_of(sheet, ABSENCES) if sheet else ():
            person = _first(row, "person")
            known = (*self.brief.people, *self.brief.resources)
            _known(person, _WHOLE, known, "person")
            if "from" not in row:
                raise person.wrong("say under `from` on which day the absence begins")
            last = row.get("to", row["from"])
            first, back = self._day(row["from"]), self._day(last, True)
            if self.brief.calendar is None and "to" not in row:
                back += 1
            if back < first or (back == first and self.brief.calendar is None):
                raise row["from"].wrong("the absence ends before it begins")
            why = row["reason"].text if "reason" in row else "away"
            to = f" to {row['to'].text}" if "to" in row else ""
            name = f"{person.text} {why} {row['from'].text}{to}"
            self.brief.leaves.append(Leave(person.text, first, back, name, _weight(row, LEAVE)))

    def read_wishes(self, sheet: Sheet | None) -> None:
        """What may be given up: in columns, or said in the name itself."""
        for row in rows_of(sheet, WISHES) if sheet else ():
            if {*row} <= {"wish", "weight"}:
                self._read_said(_first(row, "wish"), _weight(row, WISH))
            else:
                self.brief.wishes.append(self._wish(row))

    def _read_said(self, wish: Field, weight: float) -> None:
        """What is wished for in words."""
        brief = self.brief
        try:
            said = said_in(wish.text, [*brief.jobs], [*brief.people, *brief.resources])
        except ValueError as error:
            raise wish.wrong(str(error)) from None
        day = replace(wish, text=said.rest)
        if said.sort == "away":
            [person] = said.names
            brief.leaves.append(Leave(person, *self._days_from(day), wish.text, weight))
        elif said.sort in ("lag", "apart", "together", "does", "does not"):
            first_name, other = said.names
            rule = Rule(wish.text, said.sort, first_name, other, said.days, weight)
            brief.rules.append(rule)
        else:
            brief.wishes.append(self._wish_said(said, day, Wish(wish.text, weight)))

    def _wish_said(self, said: RuleSaid, day: Field, wish: Wish) -> Wish:
        """What is wished for in words of a task, of somebody, or of all."""
        [name] = said.names or [None]
        if name is not None:
            is_task = name in self.brief.jobs
            wish = replace(wish, task=name) if is_task else replace(wish, person=name)
        if said.sort == "cost":
            return replace(wish, cost=int(said.rest))
        if said.sort == "not on":
            return replace(wish, off=self._days_from(day))
        if said.sort in ("by", "before"):
            return replace(wish, latest=self._day(day, said.sort == "by"))
        return replace(wish, earliest=self._day(day, said.sort == "after"), is_on=said.sort == "on")

    def _days_from(self, given: Field) -> tuple[int, int]:
        """The first of some days, and that behind the last."""
        calendar = self.brief.calendar
        if calendar is None:
            first, _, last = given.text.partition("-")
            begin = _whole(replace(given, text=first.strip()), 0)
            return begin, _whole(replace(given, text=last.strip() or str(begin + 1)), begin)
        try:
            days = days_in(given.text, calendar.start)
        except ValueError as error:
            raise given.wrong(str(error)) from None
        if days.last < calendar.start:
            raise given.wrong(f"the plan begins on {date_said(calendar.start)}")
        begin = calendar.day_of(max(days.first, calendar.start))
        return begin, calendar.day_of(days.last + timedelta(days=1))

    def read_given_up(self, sheet: Sheet | None) -> None:
        """The premises that were given up."""
        for row in rows_of(sheet, GIVEN_UP) if sheet else ():
            self.brief.given_up.append(_first(row, "premise").text)

    def read_baseline(self, sheet: Sheet | None) -> None:
        """The schedule that was agreed on."""
        for row in rows_of(sheet, BASELINE) if sheet else ():
            task = _first(row, "task")
            for column in ("from", "to"):
                if column not in row:
                    raise task.wrong(f"say under `{column}` when it was to be done")
            has_dates = self.brief.calendar is not None
            self.brief.baseline.append(
                Agreed(
                    task.text,
                    tuple(_split(row.get("who"), _BETWEEN_PEOPLE)),
                    self._day(row["from"]),
                    self._day(row["to"], has_dates),
                    row["how"].text if "how" in row else None,
                    _whole(row["cost"], 0) if "cost" in row else None,
                )
            )

    def _wish(self, row: Fields) -> Wish:
        wish = _first(row, "wish")
        task = next(iter(_known(row.get("task"), _WHOLE, self.brief.jobs, "task")), None)
        if wish.text in self.brief.jobs:
            raise wish.wrong("a task is called so: give the wish a name of its own")
        says = [column for column in ("earliest", "latest", "cost", "way") if column in row]
        if not says:
            raise wish.wrong("say what is wished for, under earliest, latest, cost or way")
        for column in ("earliest", "way"):
            if column in says and task is None:
                raise row[column].wrong("say under `task` of which task")
        if "way" in says and task is not None:
            ways = [way.name for way in self.brief.jobs[task].ways if way.name]
            _known(row["way"], _WHOLE, ways, f"way of {printable(task)}")
        return Wish(
            wish.text,
            _weight(row, WISH),
            task,
            self._day(row["earliest"]) if "earliest" in row else None,
            self._day(row["latest"], True) if "latest" in row else None,
            _whole(row["cost"], 0) if "cost" in row else None,
            row["way"].text if "way" in row else None,
        )


# --- tasks ---


def _ways(name: str, rows: Sequence[Fields]) -> Iterator[NamedWay]:
    """The ways in which a task may be done, one for each of its rows."""
    known: set[str] = set()
    for row in rows:
        if "days" not in row:
            raise row["task"].wrong(f"say under `days` how long `{cut(name)}` takes, as 5")
        way = row["way"].text if "way" in row else ""
        if len(rows) > 1 and (not way or way in known):
            raise row["task"].wrong(
                f"`{cut(name)}` stands here twice: give each a `way` of its own, or another name"
            )
        known.add(way)
        yield NamedWay(way, _whole(row["days"], 0), _whole(row["cost"], 0) if "cost" in row else 0)


def _once(rows: Sequence[Fields], column: str) -> Field | None:
    """What the rows of a task say in a column, which has to be one thing."""
    told = [row[column] for row in rows if column in row]
    for each in told:
        if each.text != told[0].text:
            raise each.wrong("another row of this task says something else")
    return told[0] if told else None


def _ordered(jobs: dict[str, TaskWanted], rows: dict[str, list[Fields]]) -> dict[str, TaskWanted]:
    """The tasks, each behind those that it comes after. Raises SheetError where some come after one
    another in a ring."""
    waiting, done = dict(jobs), dict[str, TaskWanted]()
    while waiting:
        ready = [job for job in waiting.values() if all(it in done for it in job.after)]
        if not ready:
            ring = _ring(waiting)
            where = next(row["after"] for row in rows[ring[0]] if "after" in row)
            raise where.wrong(f"these come after one another in a ring: {listed(ring)}")
        for job in ready:
            done[job.name] = waiting.pop(job.name)
    return done


def _ring(waiting: dict[str, TaskWanted]) -> list[str]:
    """Tasks of which each comes after the next, and the last after the first."""
    way = [next(iter(waiting))]
    while True:
        before = next(it for it in waiting[way[-1]].after if it in waiting)
        if before in way:
            return way[way.index(before) :]
        way.append(before)


# --- texts ---


def _first(row: Fields, column: str) -> Field:
    """The name that a row begins with."""
    if column not in row:
        other = next(iter(row.values()))
        raise other.wrong(f"this row has no {column}")
    return row[column]


def _split(given: Field | None, between: re.Pattern[str]) -> list[str]:
    """The names in a field, each once."""
    names = between.split(given.text) if given else []
    return list(dict.fromkeys(name.strip() for name in names if name.strip()))


def _known(
    given: Field | None, between: re.Pattern[str], known: Iterable[str], what: str
) -> list[str]:
    """The names in a field, each of which has to be known."""
    names = list(known)
    found = _split(given, between)
    for name in found:
        if given is not None and name not in names:
            near = near_names(name, names)
            there = f"There are {listed(names[:_MOST])}." if names else "There is none."
            hint = f"Did you mean {near[0]}?" if near else there
            raise given.wrong(f"no {what} is called `{cut(name)}`. {hint}")
    return found


def _parts(text: str) -> list[str]:
    """Who does a task, in parts: names behind `2 of Ana` are of that."""
    found: list[str] = []
    for part in text.split(";"):
        is_group = any(it.match(part) for it in (_SOME, _ABLE)) or _OR.search(part)
        if found and not is_group:
            found[-1] += f";{part}"
        elif part.strip():
            found.append(part.strip())
    return found


def _number(given: Field, digits: str | None) -> int:
    """How many people, one where it isn't said."""
    if digits is not None and int(digits) == 0:
        raise given.wrong("0 of some people is nobody")
    return int(digits or 1)


def _yes(given: Field) -> bool:
    """Whether a field says yes."""
    if given.text.lower() not in ("yes", "no", "y", "n", "true", "false"):
        raise given.wrong(f"`{cut(given.text)}` is neither `yes` nor `no`")
    return given.text.lower()[0] in "yt"


def _whole(given: Field, least: int, wanted: str = "a whole number, as 5") -> int:
    found = re.fullmatch(r"(\d{1,12})(\.0*)?", given.text, re.ASCII)
    if found is None or int(found[1]) < least:
        raise given.wrong(f"`{cut(given.text)}` is not {wanted}")
    return int(found[1])


def _weight(row: Fields, usual: float) -> float:
    """What it costs to give something up."""
    if "weight" not in row:
        return usual
    text = row["weight"].text
    if not re.fullmatch(r"\d{1,9}(\.\d{1,9})?", text, re.ASCII):
        raise row["weight"].wrong(f"`{cut(text)}` is not a weight, as 2 or 0.5")
    return float(text)


def _judged(given: Field, read: Callable[[str], date]) -> date:
    """The date that a field is."""
    try:
        return read(given.text)
    except ValueError as error:
        raise given.wrong(str(error)) from None


def _start(text: str) -> date:
    """When a plan begins, with the year."""
    found = date_in(text, date.min)
    if found.year < _FIRST_YEAR:
        raise ValueError(f"`{text}` names no year: write it as 2026-03-02")
    return found


def _weekdays(word: str) -> list[str]:
    """The weekdays that a word names: `sat`, `Saturdays`, `weekends`."""
    if word in ("weekend", "weekends"):
        return ["sat", "sun"]
    return [day for day in _WEEKDAYS if re.fullmatch(rf"{day}(\w*days?)?", word)]
