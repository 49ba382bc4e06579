"""What can't all hold: what propwide answers to `conflicts` and `repairs`, and how that is read."""

import re
from collections.abc import Sequence
from dataclasses import dataclass

from propbench.words import named, names_in

# How a line begins that tells a set, by the command; and one of premises that may not all be
# needed. What a repair costs stands before the colon, where that was asked for.
_MARKS = {"conflicts": "conflict", "repairs": "repair"}
_UNSETTLED = "unsettled"
_LINE = re.compile(r"(conflict|repair|unsettled)(?: (\d+))?: (.*)")
_OTHERS = {"others none": True, "others unknown": False}


@dataclass(frozen=True)
class Blamed:
    """Sets of believed premises, as propwide tells them: by `conflicts` minimal ones that no points
    satisfy, by `repairs` minimal ones to give up so that points satisfy the rest. Those that are
    `unsettled` may be no minimal ones. Whether there are no others `is_all` says, where it is
    known. Of the cheapest repairs `costs` has what each costs.

    >>> print(Blamed("conflicts", (("ana", "ben"), ("cid",)), frozenset({1}), False))
    conflicts 2
    conflict: ana ben
    unsettled: cid
    others unknown
    """

    command: str
    sets: tuple[tuple[str, ...], ...]
    unsettled: frozenset[int]
    is_all: bool
    costs: tuple[int, ...] = ()

    def __str__(self) -> str:
        marks = [
            _UNSETTLED if number in self.unsettled else _MARKS[self.command]
            for number in range(len(self.sets))
        ]
        costs = [f" {cost}" for cost in self.costs] or [""] * len(self.sets)
        told = zip(marks, costs, self.sets)
        lines = [f"{mark}{cost}: {named(names)}" for mark, cost, names in told]
        others = "others none" if self.is_all else "others unknown"
        return "\n".join([f"{self.command} {len(lines)}", *lines, others])


def blamed_in(command: str, lines: Sequence[str]) -> Blamed | None:
    """What the lines of a reply to one of these commands say; None where they are no reply to it.

    >>> blamed_in("repairs", ["repairs 1", "repair: ana", "others none"])
    Blamed(command='repairs', sets=(('ana',),), unsettled=frozenset(), is_all=True, costs=())
    >>> blamed_in("repairs", ["repairs 1", "repair 5: ana", "others unknown"]).costs
    (5,)
    """
    told = [found for line in lines[1:-1] if (found := _LINE.fullmatch(line))]
    marks, costs = [found[1] for found in told], [found[2] for found in told if found[2]]
    may_stand = {_MARKS[command], *([_UNSETTLED] if command == "conflicts" else [])}
    if (
        len(told) != len(lines) - 2
        or lines[0] != f"{command} {len(told)}"
        or lines[-1] not in _OTHERS
        or not {*marks} <= may_stand
        or (costs and (command == "conflicts" or len(costs) < len(told)))
    ):
        return None
    unsettled = frozenset(number for number, mark in enumerate(marks) if mark == _UNSETTLED)
    sets = tuple(names_in(found[3]) for found in told)
    return Blamed(command, sets, unsettled, _OTHERS[lines[-1]], tuple(map(int, costs)))
