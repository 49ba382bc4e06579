"""Questions for plans put to a program that searches for points itself: one line, one answer.

They are asked in a second session of the network, which is kept (`propbench.questions.kept`). Each
plan is looked at here once more, constraint by constraint in exact whole numbers; where one doesn't
hold (as what is stated says more than its lines), nothing is said, and the search of this package
has its turn.
"""

from __future__ import annotations

import time
from collections.abc import Callable, Iterable, Iterator, Mapping, Sequence
from contextlib import contextmanager, suppress
from typing import TYPE_CHECKING

from propbench.blamed import Blamed
from propbench.clock import Clock
from propbench.closing import Closing
from propbench.points import Best, Points, Several, SoFar
from propbench.program import OutOfTime
from propbench.questions.kept import WITHOUT_END, Base, Kept, begun, kept_for
from propbench.questions.model import LEAST, Model, Plan
from propbench.questions.outcomes import Fits
from propbench.replies import UNSETTLED, Reply, Unsettled, Value
from propbench.runs import is_settled
from propbench.session import Session
from propbench.values import Held, Nothing, Span
from propbench.words import MOST_NUMBER, is_well_encoded

if TYPE_CHECKING:
    from propbench.questions.certificate import Certificate, Evidence

# Where a session keeps what its program searches for.
_TELLS = "tells"
# The program lists so many plans at the most.
_MOST = 10**9
# So many cells are said to come first.
_FIRST = 50
# So many seconds are spent on a bound at the most.
_SOON = 1.0
Claims = list[tuple[str, dict[str, object]]]


class Unlike(Exception):
    """A plan of the program doesn't hold as it is stated, or it can't be asked for on one line: so
    the question is asked another way."""


def seeks(model: Model) -> bool:
    """Whether the program of a model searches for points that fit. It is asked once."""
    return "solve" in _told_by(model)


def blames(model: Model) -> bool:
    """Whether it searches for minimal sets of premises, and may be asked: the search looks for
    points, of which measured quantities have too many. It is asked once what it has."""
    has_lines = "conflicts" in _told_by(model)
    return has_lines and not any(map(model.is_measured, model.cells()))


def _told_by(model: Model) -> tuple[str, ...]:
    """Which of the commands that propwide alone has the program of a model has."""
    kept = model.session.kept
    found = kept.get(_TELLS)
    if isinstance(found, tuple):
        return found
    first = Kept(model.session.fresh())
    tells = first.session.tells
    kept[_TELLS] = tells
    first.put_back(model) if "solve" in tells else first.close()
    return tells


class Seeker(Closing):
    """A second session of a model's network, whose program is asked for points. Where its clock has
    an end, it lasts no longer for this question."""

    def __init__(
        self,
        model: Model,
        clock: Clock,
        session: Session | None = None,
        holding: Iterable[str] = (),
    ) -> None:
        """A session in which what is believed is that of the model: the one that is kept for its
        questions, or this one, which is empty as yet. What the premises say that are `holding`
        always holds in it. Raises as `Session` does."""
        self.model, self.clock = model, clock
        self._is_kept = session is None
        if session is None:
            always = frozenset(map(model.line_name, holding))
            self._asked = kept_for(model, clock.latest, always)
        else:
            self._asked = begun(session, Base().followed_by(model.base()), clock.latest)
        self.session, base = self._asked.session, self._asked.base
        self.base, self._kinds, self.mark = base.lines, base.kinds, base.mark
        self.lines = {cell: model.cell_name(cell) for cell in model.cells()}
        self._premises = {model.line_name(each): each for each in model.premises()}
        # What any symbol is that may be any.
        self._other = f"{base.other}0"
        self.reply: Reply = UNSETTLED
        # How many steps the last question took so far.
        self.steps = 0
        # Called with what is known, slice by slice; what it raises ends the question.
        self.heard: Callable[[Reply], None] | None = None

    def close(self) -> None:
        """Keeps the session for the next question, or ends it."""
        if self._is_kept:
            self._asked.put_back(self.model)
        else:
            self._asked.close()

    def ask(self, line: str, seconds: float | None = None) -> None:
        """Asks for points, or goes on with the same question, for so many seconds at the most:
        `reply` is what is known of them, also where this is cut short. Raises Unlike where the line
        is too long.
        """
        if not is_well_encoded(line):
            raise Unlike
        left = self.clock.seconds_left()
        most = left if left is None or seconds is None else min(seconds, left)
        most = seconds if most is None else most
        before, self.steps = self.reply, 0

        def hear(steps: int, reply: Reply) -> None:
            self.reply, self.steps = _joined(before, reply), steps or self.steps
            if self.clock.is_telling():
                self.clock.tell(_told(self.reply, line))
            if self.heard is not None:
                self.heard(self.reply)

        # (what takes longer than that goes on, and the next question waits for it)
        with suppress(OutOfTime):
            hear(0, self.session.send(line, seconds=most, progress=hear))

    @property
    def is_settled(self) -> bool:
        """Whether all that was asked for is known."""
        if isinstance(self.reply, Several):
            return self.reply.others is not None
        return is_settled(self.reply)

    def lowest(
        self, points: Points, cell: str | None = None, premises: Sequence[str] | None = None
    ) -> Fits:
        """The plan of these points with numbers as low as they can be in the alternatives that it
        takes, but for a cell, where that is one, as far as that is seen soon; with these premises
        believed, or those of the model. Raises Unlike."""
        believed = self.model.believed() if premises is None else premises
        held, kept = self._held(points), [] if cell is None else [cell]
        plan = self._plan(held)
        low = self.model.lowered(plan, believed, kept)
        moved = {cell: Span(int(v), int(v)) for cell, v in low.items() if v != plan[cell]}
        with suppress(Unlike):
            return self.plan_of({**held, **moved}, believed)
        return self.plan_of(held, believed)

    def fits(self, points: Points, premises: Sequence[str] | None = None) -> Fits:
        """The plan of the user's cells at points, with these premises believed, or those of the
        model. Raises Unlike where it doesn't hold."""
        return self.plan_of(self._held(points), premises)

    def plan_of(self, values: Mapping[str, Held], premises: Sequence[str] | None = None) -> Fits:
        """The plan of these values of all of the user's cells, with these premises believed, or
        those of the model. Raises Unlike."""
        plan = self._plan(values)
        if self.model.violated(plan, self.model.believed() if premises is None else premises):
            raise Unlike
        return Fits(plan, {cell: self._text(held) for cell, held in values.items()})

    def _held(self, points: Points) -> dict[str, Held]:
        """What points have for the user's cells."""
        return {cell: points.values[line] for cell, line in self.lines.items()}

    def _plan(self, values: Mapping[str, Held]) -> Plan:
        return {cell: self.model.point(cell, self._text(it)) for cell, it in values.items()}

    def _text(self, held: Held) -> str:
        return self._other if isinstance(held, Nothing) else str(held)

    @contextmanager
    def supposing(self, told: Mapping[str, Held | str]) -> Iterator[None]:
        """Values of cells count within the block, and are forgotten then. Raises OutOfTime."""
        row = f"{self.mark}row"
        self._asked.is_whole = False
        self.session.send_all(f"tell {row} {line} {held}" for line, held in told.items())
        yield
        self.session.send_all([f"forget {row}"] if told else [])
        self._asked.is_whole = True

    @contextmanager
    def without(self, premises: Iterable[str]) -> Iterator[None]:
        """Premises of lines don't count within the block. Raises OutOfTime."""
        names = list(premises)
        self._asked.is_whole = False
        self.session.send_all(f"kick {name}" for name in names)
        yield
        self.session.send_all(f"bring {name}" for name in names)
        self._asked.is_whole = True

    def by_hand(self) -> Points | None:
        """What the program answers of a plan that was made by hand; None where there is none, it
        doesn't fit, or that took long. What is asked next begins there."""
        row = {
            self.lines[cell]: self.model.literal(cell, value)
            for cell, value in self.model.by_hand().items()
        }
        left = self.clock.seconds_left()
        seconds = 2 * _SOON if left is None else min(2 * _SOON, left / 2)
        if not row:
            return None
        reply: Reply = UNSETTLED
        with self.supposing(row), suppress(OutOfTime):
            reply = self.session.send("solve", seconds=seconds)
        return reply if isinstance(reply, Points) else None

    def premises(self, names: Iterable[str]) -> tuple[str, ...]:
        """Premises of lines as the user calls them, in the order of their first mention."""
        known = set(names)
        return tuple(name for line, name in self._premises.items() if line in known)

    def whole(self, rows: Sequence[Mapping[str, Held]]) -> list[Fits]:
        """Plans that have these values, and some of the other cells, as far as there is time.
        Raises Unlike where one doesn't hold."""
        found: list[Fits] = []
        with suppress(OutOfTime):
            for row in rows:
                fits = self._completed(row)
                if fits is None:
                    break
                found.append(fits)
        return found

    def _completed(self, row: Mapping[str, Held]) -> Fits | None:
        """A plan that has these values, None where there is no time."""
        cells = {line: cell for cell, line in self.lines.items()}
        if len(row) == len(cells):
            return self.plan_of({cells[line]: held for line, held in row.items()})
        with self.supposing(row):
            reply = self.session.send("solve", seconds=self.clock.seconds_left())
        self._asked.let_go()
        return self.fits(reply) if isinstance(reply, Points) else None

    def shown(self, plan: Plan) -> Plan:
        """A plan as it is shown: without quantities, of which no plan has the real number."""
        return {cell: value for cell, value in plan.items() if not self.model.is_measured(cell)}

    def evidence(self) -> Evidence:
        """What shows claims, as yet without plans."""
        from propbench.questions.certificate import Evidence

        premises = {name: line for line, name in self._premises.items()}
        return Evidence(self.base, self.mark, self.lines, premises, self.session.program)

    def is_number(self, cell: str) -> bool:
        """Whether a cell is for numbers."""
        return self._kinds[self.lines[cell]] == "span"

    def symbols(self) -> list[str]:
        """The cells for symbols."""
        return [cell for cell, line in self.lines.items() if self._kinds[line] == "symbol"]

    def end_of(self, cell: str, sort: str) -> int | None:
        """How far a number goes by what follows without any search, None where that has no end."""
        held = self._follows(self.lines[cell])
        if isinstance(held, Span):
            end = held.low if sort == LEAST else held.high
            return None if abs(end) == MOST_NUMBER else end
        # (there was no time for that: so it is the end that was declared)
        room = self.model.candidates(cell)
        return room[0 if sort == LEAST else -1] if isinstance(room, range) and room else None

    def _follows(self, line: str) -> Held | None:
        """What is left for a cell whatever the choices take, where that is found out soon: a
        session that has the choices would go by some of them."""
        latest = time.monotonic() + _SOON
        with suppress(OutOfTime), self.model.session.fresh() as session:
            session.end_by(latest if self.clock.last is None else min(latest, self.clock.last))
            stated = [line for line in self.base if line.split()[0] != "choose"]
            session.send_all([*stated, WITHOUT_END])
            session.send("settle", seconds=_SOON / 2)
            [reply] = session.look([f"ask {line}"])
            return reply.value if isinstance(reply, Value) else None
        return None

    def refuted(self, premises: Iterable[str]) -> tuple[str, dict[str, object]]:
        """The claim that nothing fits with these premises of lines."""
        return "refuted", {"given": sorted(premises)}

    def first(self) -> list[str]:
        """The cells that are decided first, by their names on lines, as many as fit on a line."""
        cells = [cell for each in self.model.first() for cell in each.cells]
        return [self.lines[cell] for cell in dict.fromkeys(cells)][:_FIRST]

    def given(self, premises: Sequence[str] | None = None) -> list[str]:
        """Premises by their names on lines, as a certificate has them; or all that are believed."""
        believed = self.model.believed() if premises is None else premises
        return sorted(map(self.model.line_name, believed))

    def certificate(self, claims: Claims, plans: Iterable[Fits]) -> Certificate | None:
        """The certificate of claims, with these plans."""
        evidence = self.evidence()
        for fits in plans:
            evidence.add_plan(self.model.believed(), fits)
        return evidence.certificate(claims)


def count_asked(most: int) -> int:
    """How many plans are asked for where so many are wanted: one more tells if these are all."""
    return min(most + 1, _MOST)


def _joined(before: Reply, reply: Reply) -> Reply:
    """What is known behind a reply to a question that goes on."""
    if isinstance(before, Several) and isinstance(reply, Several):
        return Several((*before.rows, *reply.rows), reply.others)
    return before if isinstance(reply, Unsettled) else reply


def _told(reply: Reply, line: str) -> str:
    """What is told of a question that goes on, which was asked by a line."""
    if isinstance(reply, Several):
        return f"{len(reply.rows)} plans so far"
    if isinstance(reply, Blamed):
        return f"{len(reply.sets)} {reply.command} so far"
    if not isinstance(reply, SoFar):
        return "searching"
    sort, cell, *_ = line.split()
    found = f"searching; {reply.points.values[cell]} is the {sort} so far"
    return found if reply.bound is None else f"{found}, and {reply.bound} the {sort} that may be"


def points_of(reply: Reply) -> Points | None:
    """The points of a reply, None where it has none."""
    if isinstance(reply, Best | SoFar):
        return reply.points
    return reply if isinstance(reply, Points) else None
