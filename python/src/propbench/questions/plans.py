"""All plans over some cells, each once: a tree of cases, each leaf a plan or a contradiction."""

from collections.abc import Iterable, Sequence
from contextlib import suppress
from dataclasses import dataclass, field

from propbench.clock import Clock, Progress
from propbench.points import NoneFits, Points, Several
from propbench.questions.asking import CellLike, cells_given, tried, tried_by, whole_named
from propbench.questions.certificate import Certificate, Evidence, Tree, as_json, on_lines
from propbench.questions.model import Model, Plan
from propbench.questions.outcomes import Cannot, Fits, Open, Outcome
from propbench.questions.rooms import NameRoom, Room, around, values_of
from propbench.questions.searching import decided, decided_each
from propbench.questions.seeking import Seeker, Unlike, count_asked, seeks
from propbench.questions.shown import NOT_REFUTED, Shown
from propbench.questions.trial import Case, Trial

_OPEN = "open"
# So many values of a cell are tried in one go.
_AT_ONCE = 16
# No more cells than these are gone through within one another, and a certificate has no more cases
# within one another than JSON can be written and read with.
_DEEPEST, _DEEPEST_SHOWN = 1000, 200


@dataclass
class _Branch:
    """A cell of which cases are gone through, within what is supposed: what waits, the next one
    last, with what is known of it, and the cases that are done."""

    told: tuple[Case, ...]
    cell: str
    waiting: list[tuple[Room, Outcome | None]]
    cases: list[list[object]] = field(default_factory=list)


class Plans(Shown, list[Plan]):
    """Plans over the cells that are shown, each a dict by their names; all there are where it is
    `complete`, by what the premises `because` say, where the program searches itself. In `whole`
    the same plans have all cells but quantities.

    >>> w = Workbench()
    >>> x, y = w.number("x", 0, 9), w.number("y", 0, 9)
    >>> w.require(x * y == 49)
    >>> print(w.plans())
    1 plan, no others:
      x  y
      7  7
    """

    def __init__(
        self,
        show: Sequence[str],
        found: Iterable[Plan],
        complete: bool,
        certificate: Certificate | None,
    ) -> None:
        super().__init__(found)
        self.show = tuple(show)
        self.complete = complete
        self.because: tuple[str, ...] = ()
        self.whole: tuple[Plan, ...] = ()
        self._certificate = certificate

    def headline(self) -> str:
        if self.complete and not self:
            return "Nothing fits."
        number = f"{len(self)} plan{'' if len(self) == 1 else 's'}"
        return f"{number}, {'no others' if self.complete else f'others are {NOT_REFUTED}'}:"

    def heads(self) -> Sequence[str]:
        return self.show

    def rows(self) -> Sequence[Sequence[object]]:
        return [[plan[cell] for cell in self.show] for plan in self]


class PlanListing:
    """The search for all plans: the tree of cases, as far as it has grown."""

    def __init__(self, trial: Trial, show: Sequence[str], most: int) -> None:
        """Over these cells, none of which is for symbols, so many at the most."""
        self.trial, self.show, self.most = trial, list(show), most
        self.found: list[Fits] = []
        self.tree: Tree = _OPEN
        self.complete = self._has_open = self._is_deep = False
        self._branches: list[_Branch] = []

    def run(self) -> None:
        """Goes through all cases, as long as there is time."""
        tree = self._tree((), self._within(()))
        while self._branches:
            branch = self._branches[-1]
            if branch.waiting:
                self._take(branch, *branch.waiting.pop())
            else:
                self._branches.pop()
        self.tree = tree
        self.complete = not self._has_open

    def _take(self, branch: _Branch, part: Room, known: Outcome | None) -> None:
        """Takes a case of a branch: what lies in it, or its plan's value and what lies beside."""
        within = (*branch.told, (branch.cell, part))
        outcome = known or self._within(within)
        if isinstance(outcome, Fits) and len(part) > 1:
            branch.waiting += reversed(_around(branch.cell, part, outcome))
        else:
            branch.cases.append([str(part), self._tree(within, outcome)])

    def _within(self, told: Sequence[Case]) -> Outcome:
        """What comes of a search within these cases."""
        if len(self.found) >= self.most or self.trial.clock.is_over():
            return Open("enough plans were found")
        return decided(self.trial, self.trial.basis, told)

    def _tree(self, told: tuple[Case, ...], outcome: Outcome) -> Tree:
        """The tree of what lies within these cases, of which this is known; where it forks, its
        branch is gone through later."""
        if isinstance(outcome, Cannot):
            return as_json(outcome.tree)
        if isinstance(outcome, Open) or len(self.found) >= self.most:
            self._has_open = True
            return _OPEN
        rooms = self.trial.known(told)
        cell = next((cell for cell in self.show if len(rooms[cell]) > 1), None)
        self._is_deep = self._is_deep or len(told) > _DEEPEST_SHOWN
        if cell is not None and len(told) < _DEEPEST:
            parts = self._parts(told, cell, rooms[cell], outcome)
            self._branches.append(_Branch(told, cell, parts[::-1]))
            return [self.trial.cell_line[cell], self._branches[-1].cases]
        self._has_open = self._has_open or cell is not None
        self.found.append(outcome)
        self.trial.clock.tell(f"{len(self.found)} plans so far")
        return on_lines(self.trial.cell_line, outcome)

    def _parts(
        self, told: tuple[Case, ...], cell: str, room: Room, first: Fits
    ) -> list[tuple[Room, Outcome | None]]:
        """A room in parts, with what is known of each: all values where these are few, and few
        enough to be wanted."""
        if len(room) > min(_AT_ONCE, self.most - len(self.found)):
            return _around(cell, room, first)
        parts = values_of(room)
        others = [part for part in parts if str(part) != first.values[cell]]
        many = [(*told, (cell, part)) for part in others]
        found = dict(zip(others, decided_each(self.trial, self.trial.basis, many)))
        return [(part, found.get(part, first)) for part in parts]

    def result(self) -> Plans:
        """The plans that were found, in order."""
        found = sorted(self.found, key=self._place)
        shown = ({cell: fits.plan[cell] for cell in self.show} for fits in found)
        plans = Plans(self.show, shown, self.complete, self._made())
        plans.whole = tuple(self.trial.shown(fits.plan) for fits in found)
        return plans

    def _made(self) -> Certificate | None:
        """What shows that these are plans; and that there are no others, or where there may be."""
        evidence = Evidence.of(self.trial)
        given = evidence.lines_of(self.trial.basis)
        show = [self.trial.cell_line[cell] for cell in self.show]
        plans = [[fits.values[cell] for cell in self.show] for fits in self.found]
        if self.tree != _OPEN and not self._is_deep:
            claim = {"given": given, "show": show, "plans": plans, "tree": self.tree}
            return evidence.certificate([("plans_are", {**claim, "complete": self.complete})])
        # (Ctrl-C has ended the search before there was a tree, or it is too deep.)
        for fits in self.found:
            evidence.add_plan(self.trial.basis, fits)
        told = [[list(each) for each in zip(show, plan)] for plan in plans]
        return evidence.certificate([("fits", {"given": given, "told": each}) for each in told])

    def _place(self, fits: Fits) -> list[int]:
        """What plans are ordered by: each number, or the place of each name in its domain."""
        places = []
        for cell in self.show:
            room, value = self.trial.rooms[cell], fits.values[cell]
            places.append(room.names.index(value) if isinstance(room, NameRoom) else int(value))
        return places


def _around(cell: str, room: Room, fits: Fits) -> list[tuple[Room, Outcome | None]]:
    """A room in the value of a plan, with that plan, and what lies beside."""
    value = fits.values[cell]
    return [(part, fits if str(part) == value else None) for part in around(room, value)]


def _shown(model: Model, names: Sequence[str] | None, symbols: Sequence[str]) -> list[str]:
    """The cells that are shown: these, or all but quantities and those for symbols. Raises
    ValueError for one of the symbols."""
    if names is None:
        return [e for e in model.cells() if e not in symbols and not model.is_measured(e)]
    for name in names:
        if name in symbols:
            raise ValueError(f"{name} is for symbols, and these are too many to go through")
    return list(dict.fromkeys(names))


class Listed:
    """All plans over some cells, by a program that searches for them itself."""

    def __init__(self, seeker: Seeker, names: Sequence[str] | None, most: int) -> None:
        """Over these cells, or all that are shown, so many at the most. Raises ValueError for one
        for symbols."""
        self._seeker, self._most = seeker, most
        self.show = _shown(seeker.model, names, seeker.symbols())
        self._lines = [seeker.lines[cell] for cell in self.show]

    def run(self, seconds: float | None = None) -> bool:
        """Asks, or goes on, for so many seconds; whether all is known that is wanted. Raises
        OutOfTime."""
        seeker = self._seeker
        known = len(seeker.reply.rows) if isinstance(seeker.reply, Several) else 0
        line = " ".join(["plans", str(count_asked(self._most) - known), *self._lines])
        # (half the time is for the other cells of the plans)
        left = seeker.clock.seconds_left()
        if left is not None and len(self.show) < len(seeker.lines):
            seconds = left / 2 if seconds is None else min(seconds, left / 2)
        seeker.ask(line if self.show else "solve", seconds)
        reply = seeker.reply
        return seeker.is_settled or isinstance(reply, Several) and len(reply.rows) > self._most

    def result(self) -> Plans:
        """The plans that were found, in order. Raises Unlike."""
        seeker, reply = self._seeker, self._seeker.reply
        if isinstance(reply, NoneFits):
            made = seeker.certificate([seeker.refuted(reply.premises)], [])
            return self._plans([], reply.premises, made)
        if isinstance(reply, Points):
            fits, claim = seeker.fits(reply), {"given": seeker.given(), "told": []}
            return self._plans([fits], (), seeker.certificate([("fits", claim)], [fits]))
        if not isinstance(reply, Several):
            return self._plans([], None, None)
        # (a plan may be told twice)
        different = list({str(row): row for row in reply.rows}.values())
        found = seeker.whole(different[: self._most])
        is_all = len(found) == len(different)
        others = reply.others if is_all else None
        return self._plans(found, others, self._made(found, others))

    def _plans(
        self, found: Iterable[Fits], others: Sequence[str] | None, made: Certificate | None
    ) -> Plans:
        """These plans, and by which premises of lines there are no others, where that is known."""
        plans = sorted(found, key=self._place)
        shown = ({cell: fits.plan[cell] for cell in self.show} for fits in plans)
        result = Plans(self.show, shown, others is not None, made)
        result.because = self._seeker.premises(others or ())
        result.whole = tuple(self._seeker.shown(fits.plan) for fits in plans)
        return result

    def _made(self, found: Sequence[Fits], others: Sequence[str] | None) -> Certificate | None:
        """What shows that these are plans, and that there are no others."""
        plans = [[fits.values[cell] for cell in self.show] for fits in found]
        by = None if others is None else sorted(others)
        claim = {"given": self._seeker.given(), "show": self._lines, "plans": plans, "because": by}
        return self._seeker.certificate([("listed", claim)] if found or by is not None else [], [])

    def _place(self, fits: Fits) -> list[int]:
        """What plans are ordered by: each number, or the place of each name in its domain."""
        places = []
        for cell in self.show:
            value = fits.plan[cell]
            if isinstance(value, str):
                names = list(self._seeker.model.candidates(cell) or ())
                places.append(names.index(value))
            else:
                # (of a truth yes comes first)
                places.append(-value if isinstance(value, bool) else value)
        return places


def find_plans(
    model: Model,
    show: str | Iterable[CellLike] | None,
    most: int,
    seconds: float | None,
    progress: Progress | None,
) -> Plans:
    """All plans with what is believed, over these cells, or over all but quantities and those for
    symbols. Raises ValueError for one for symbols, and TypeError for a quantity."""
    clock = Clock(seconds, progress)
    names = None if show is None else [whole_named(model, it) for it in cells_given(model, show)]
    if seeks(model):
        with suppress(Unlike), Seeker(model, clock) as seeker:
            return listed_in_turns(seeker, names, most)
    return plans_by_cases(model, names, most, clock)


def listed_in_turns(seeker: Seeker, names: Sequence[str] | None, most: int) -> Plans:
    """Plans by a program that searches, and where that takes long by cases too, in turns. Raises
    Unlike."""
    listed = Listed(seeker, names, most)
    clock, found = seeker.clock, list[Plans]()

    def run() -> None:
        for seconds in clock.turns():
            if listed.run(seconds) or clock.is_over():
                break
            found.append(plans_by_cases(seeker.model, names, most, clock.turn(seconds)))
            if found[-1].complete or len(found[-1]) >= most:
                break

    def result() -> Plans:
        if found and (found[-1].complete or len(found[-1]) >= most):
            return found[-1]
        own = listed.result()
        return max([own, *found], key=len)

    return tried_by(clock, run, result)


def plans_by_cases(model: Model, names: Sequence[str] | None, most: int, clock: Clock) -> Plans:
    """Plans by going through cases."""
    trial = Trial(model, model.believed(), clock)
    try:
        shown = _shown(model, names, [cell for cell in trial.cells if trial.rooms[cell] is None])
    except ValueError:
        trial.close()
        raise
    listing = PlanListing(trial, shown, most)
    return tried(trial, listing.run, listing.result)
