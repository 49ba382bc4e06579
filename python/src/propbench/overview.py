"""All that a session knows at a glance: each cell with its value and reasons, or the conflict.

Every value and every name of a premise is that of a reply. A side of a choice is shown as what it
says (`venue: days = 2`), and not as `venue=1`.
"""

from collections.abc import Sequence
from dataclasses import dataclass

from propbench.listing import ToldLines, told_by
from propbench.refusals import Refused
from propbench.replies import Contradiction, Reply, Value, Worldview
from propbench.runs import RunProgress, is_settled
from propbench.session import Session
from propbench.tables import table
from propbench.words import NO_PREMISE

UNPROVED = "The program that answers is not known to be proved."
_OPEN = "This is not settled: values may still become narrower, or turn out to be in conflict."
_WAY_OUT = "Give one of them up by `kick`; not all of them may be needed for a conflict."
_MISSING = "(nothing was told)"


@dataclass(frozen=True)
class Overview:
    """The values of the cells, in the order in which they were made; or the premises that can't all
    hold. `plan` has the sides on which the choices stand. `steps` tells after how many steps the
    run was cut by the clock, None where it wasn't."""

    settled: bool
    conflict: tuple[str, ...] | None
    values: tuple[Value, ...]
    plan: tuple[str, ...]
    told: ToldLines
    proved: bool
    steps: int | None = None

    def named(self, premise: str) -> str:
        """A premise, or what a side of a choice says."""
        side = self.told.side(premise)
        return f"{premise.partition('=')[0]}: {side}" if side else premise

    def reasons(self, value: Value) -> str:
        """What a value rests on."""
        names = value.because or ()
        return ", ".join(map(self.named, names)) or NO_PREMISE

    def __str__(self) -> str:
        parts = [self._conflict() if self.conflict is not None else self._values()]
        if self.plan and self.conflict is None:
            sides = ", ".join(map(self.named, self.plan))
            parts.append(f"The values are those of this plan, the first that fits: {sides}.")
        if not self.settled:
            parts.append(_OPEN)
        if not self.proved:
            parts.append(UNPROVED)
        return "\n".join(parts)

    def _conflict(self) -> str:
        if not self.conflict:
            return "CONFLICT: what is fixed can't all hold, whatever is believed."
        if len(self.conflict) == 1:
            says, way_out = f"{self.conflict[0]} can't hold. It says:", "Give it up by `kick`."
        else:
            says, way_out = f"{', '.join(self.conflict)} can't all hold. They say:", _WAY_OUT
        lines = [f"CONFLICT: {says}"]
        rows = [
            (premise, ", ".join(map(str, self.told.premises.get(premise, ()))) or _MISSING)
            for premise in self.conflict
        ]
        lines.append(table(("premise", "says"), rows, "  "))
        lines.append(way_out)
        return "\n".join(lines)

    def _values(self) -> str:
        if not self.values:
            return "There are no cells."
        rows = [(value.cell, str(value.value), self.reasons(value)) for value in self.values]
        return table(("cell", "value", "because of"), rows)


def overview(
    session: Session, seconds: float | None = None, progress: RunProgress | None = None
) -> Overview:
    """All that follows now, found by a run that is cut after so many seconds."""
    before = len(session.lines)
    end = session.send("settle", seconds=seconds, progress=progress)
    replies: Sequence[Reply | Refused] = ()
    if not isinstance(end, Contradiction):
        # (what the program was at work on yet is taken in before that)
        replies = session.look([*(f"why {cell}" for cell in session.known.cells), "worldview"])
    clash = next((each for each in (end, *replies) if isinstance(each, Contradiction)), None)
    told = told_by(session.lines)
    if clash:
        return Overview(True, clash.premises, (), (), told, session.proved)
    values = tuple(reply for reply in replies if isinstance(reply, Value))
    plan: tuple[str, ...] = ()
    if told.choices and isinstance(replies[-1], Worldview):
        plan = tuple(name for name in replies[-1].inside if told.side(name))
    is_all = is_settled(end) or isinstance(replies[-1], Worldview)
    steps = _cut_after(session.lines[before:])
    return Overview(is_all, None, values, plan, told, session.proved, steps)


def _cut_after(ran: Sequence[str]) -> int | None:
    """After how many steps a run was cut, by the lines that came of it and of a look behind it;
    None where it was not. (What was cut stands between its steps and the limit that was in force.
    Of a run in which the program hung there is nothing.)"""
    limits = [behind for behind, line in zip(["", *ran], ran) if line == "settle"]
    if not all(limit.startswith("limit ") for limit in limits):
        return None
    return sum(int(limit.split()[1]) for limit in limits)
