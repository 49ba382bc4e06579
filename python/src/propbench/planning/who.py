"""Who does a task: all of some people, or whoever suits best of them, or of those with a skill."""

from collections.abc import Iterable, Mapping, Sequence
from dataclasses import dataclass
from itertools import combinations
from typing import SupportsIndex

from propbench.given import names_given
from propbench.nearby import near_names
from propbench.questions.shown import listed
from propbench.showing import printable


@dataclass(frozen=True)
class AnyOf:
    """So many of some people, whoever suits best."""

    number: int
    names: tuple[str, ...] | str


@dataclass(frozen=True)
class Skilled:
    """So many of those people who have all of some skills, whoever suits best."""

    number: int
    names: tuple[str, ...] | str


# Who does a task, as a user says it: names, or some of several, or both in a list.
Who = str | AnyOf | Skilled | Sequence[str | AnyOf | Skilled]


def any_of(*given: int | str | Iterable[str]) -> AnyOf:
    """One of some people, whoever suits best: `any_of("ana", "ben")`; or so many of them, with the
    number in front. Raises TypeError for what is no name, and ValueError for a number below one.

    >>> w = Workbench()
    >>> p = w.project(days=30, people="ana ben cem")
    >>> venue = p.task("venue", 3, who=any_of("ana", "ben"))
    >>> review = p.task("review", 5, who=any_of(2, "ana", "ben", "cem"))
    >>> w.least(p.end).value
    5
    """
    return AnyOf(*_several("any_of", given))


def skilled(*given: int | str | Iterable[str]) -> Skilled:
    """One of those people who have a skill, or all of several skills, whoever suits best; or so
    many of them, with the number in front. Raises as `any_of`.

    >>> w = Workbench()
    >>> p = w.project(days=30, people="ana ben", skills={"ana": "welding", "ben": "wiring"})
    >>> frame = p.task("frame", 3, who=skilled("welding"))
    >>> frame.people
    ('ana',)
    """
    return Skilled(*_several("skilled", given))


def _several(what: str, given: Sequence[object]) -> tuple[int, tuple[str, ...] | str]:
    """The number in front, one where there is none, and the names."""
    number, names = 1, list(given)
    if names and isinstance(names[0], SupportsIndex):
        number = int(names.pop(0))  # type: ignore[call-overload]  # (a whole number)
    if number < 1:
        raise ValueError(f"{what}: {number} of some people is nobody")
    if not names:
        raise ValueError(f"{what}: name at least one, as {what}('ana')")
    if len(names) > 1:
        return number, names_given(names)
    # (one text may be several names: that is known once it is known who there is)
    return number, names[0] if isinstance(names[0], str) else names_given(names[0])


@dataclass(frozen=True)
class Doers:
    """Who does a task: all of these `people`, and so many of each of some `groups`. Who is in
    several of them stands for one."""

    people: tuple[str, ...] = ()
    groups: tuple[tuple[int, tuple[str, ...]], ...] = ()

    @property
    def number(self) -> int:
        """How many of the others do it."""
        return sum(number for number, _ in self.groups)

    @property
    def others(self) -> tuple[str, ...]:
        """Those who may do it, each once."""
        return tuple(dict.fromkeys(name for _, names in self.groups for name in names))

    @property
    def shared(self) -> tuple[str, ...]:
        """Those who are in several groups."""
        names = [name for _, group in self.groups for name in group]
        return tuple(name for name in self.others if names.count(name) > 1)


class Staffing:
    """Who there is, and what they can do."""

    def __init__(self, people: tuple[str, ...], skills: Mapping[str, str | Sequence[str]]) -> None:
        """Of these people, with these skills. Raises ValueError for those of somebody else."""
        self.people = people
        self.skills = {self.known(person): names_given(has) for person, has in skills.items()}

    def known(self, person: str) -> str:
        """The name of somebody. Raises ValueError for another."""
        if person not in self.people:
            near = near_names(person, self.people)
            hint = _EITHER if person == "or" else f" Did you mean {near[0]}?" if near else ""
            raise ValueError(f"nobody in the plan is called {person!r}.{hint}")
        return person

    def doers(self, task: str, who: Who) -> Doers:
        """Who does a task. Raises ValueError where there is nobody like that, and TypeError."""
        if isinstance(who, str | AnyOf | Skilled):
            parts: list[str | AnyOf | Skilled] = [who]
        else:
            # (names alone are a list, of which `names_given` says what is wrong)
            parts = list(who) if _has_groups(who) else list(names_given(who, self.people))
        names = [name for part in parts if isinstance(part, str) for name in self._names(part)]
        people = tuple(dict.fromkeys(map(self.known, names)))
        groups = [part for part in parts if not isinstance(part, str)]
        named = [(each.number, tuple(dict.fromkeys(self._members(task, each)))) for each in groups]
        return _settled(task, people, named)

    def _names(self, text: str) -> tuple[str, ...]:
        return names_given(text, self.people)

    def _members(self, task: str, group: AnyOf | Skilled) -> list[str]:
        return self._able(task, group) if isinstance(group, Skilled) else self._named(group)

    def _named(self, group: AnyOf) -> list[str]:
        return [self.known(each) for each in names_given(group.names, self.people)]

    def _able(self, task: str, group: Skilled) -> list[str]:
        known = {skill for has in self.skills.values() for skill in has}
        wanted = names_given(group.names, known)
        for skill in wanted:
            if skill not in known:
                near = near_names(skill, known)
                hint = f"Did you mean {near[0]}?" if near else f"Say who, as {_FORM}"
                raise ValueError(f"{printable(task)}: nobody is skilled in {skill!r}. {hint}")
        return [each for each in self.people if {*wanted} <= {*self.skills.get(each, ())}]


def _settled(
    task: str, people: tuple[str, ...], groups: Sequence[tuple[int, tuple[str, ...]]]
) -> Doers:
    """These people, and so many of each group, who are none of them. Where all of a group are
    needed, these are people too. Raises ValueError where there aren't so many."""
    left: list[tuple[int, tuple[str, ...]]] = []
    for place, (number, names) in enumerate(groups):
        others = tuple(each for each in names if each not in people)
        _check_enough(task, number, others)
        if number == len(others):
            return _settled(task, (*people, *others), [*groups[:place], *groups[place + 1 :]])
        left.append((number, others))
    for size in range(2, len(left) + 1):
        for some in combinations(left, size):
            _check_enough(task, sum(it[0] for it in some), Doers((), some).others)
    return Doers(people, tuple(left))


def _check_enough(task: str, number: int, others: tuple[str, ...]) -> None:
    if number > len(others):
        there = f"there is only {listed(others)}" if others else "there is nobody else"
        raise ValueError(f"{printable(task)}: {number} are needed, and {there}")


_FORM = 'skills={"ana": "welding"}'
# What `ana or ben` of a spreadsheet is in Python.
_EITHER = " Whoever suits best of two is any_of('ana', 'ben')."


def _has_groups(who: object) -> bool:
    is_several = isinstance(who, Iterable) and not isinstance(who, str | Mapping)
    return is_several and any(isinstance(each, AnyOf | Skilled) for each in who)  # type: ignore


def speeds_given(task: str, days: Mapping[str, int], doers: Doers) -> dict[str, int]:
    """How many days each takes who may do a task. Raises ValueError where somebody lacks, or
    several do it, and TypeError for what is no whole number."""
    if doers.number != 1 or doers.people or len(doers.groups) > 1:
        raise ValueError(
            f"{printable(task)}: days of each are for a task that one of several does: "
            "who=any_of('ana', 'ben')"
        )
    if {*days} != {*doers.others}:
        raise ValueError(f"{printable(task)}: say how many days it takes {listed(doers.others)}")
    for person, number in days.items():
        if not isinstance(number, SupportsIndex):
            raise TypeError(f"{printable(task)}: {number!r} days of {person} is no whole number")
        if number < 0:
            raise ValueError(f"{printable(task)}: {person} can't take less than no days")
    return {person: int(days[person]) for person in doers.others}
