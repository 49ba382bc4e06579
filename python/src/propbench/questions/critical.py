"""How much room a cell has over all plans, and which premises leave it no more."""

from collections.abc import Iterable, Sequence
from contextlib import suppress
from dataclasses import dataclass

from propbench.clock import Clock, Progress
from propbench.questions.asking import CellLike, tried, tried_by, whole_named
from propbench.questions.blaming import BY_SEARCH
from propbench.questions.bounding import GREATEST, LEAST, Bounding, Optimum, bounding_in
from propbench.questions.certificate import Certificate, Evidence
from propbench.questions.conflicts import Premises
from propbench.questions.ends import Ending
from propbench.questions.exploring import Exploring, Refuted
from propbench.questions.hitting import bits_of
from propbench.questions.leaving import Leaving, beyond_of
from propbench.questions.model import Model, Point
from propbench.questions.outcomes import Fits, NothingFits
from propbench.questions.plans import PlanListing, listed_in_turns
from propbench.questions.rooms import NumberRoom
from propbench.questions.seeking import Seeker, Unlike, blames, seeks
from propbench.questions.shown import NOT_REFUTED, Shown, shortened
from propbench.questions.trial import Trial
from propbench.words import MOST_NUMBER


@dataclass(frozen=True, repr=False)
class Slack(Shown):
    """The room of a cell over all plans: of a number from `low` to `high`, which plans have; of
    another cell all `values` that plans have. `room` is how much that is beyond one value.

    >>> w = Workbench()
    >>> x = w.number("x", 3, 9)
    >>> print(w.slack(x))
    Over all plans:
      cell  least  greatest  room
      x     3      9         6
    """

    cell: str
    low: int | None
    high: int | None
    values: tuple[Point, ...]
    complete: bool
    _certificate: Certificate | None

    @property
    def room(self) -> int | None:
        """How much a number may move, or how many other values there are; None where nothing
        fits.

        >>> w = Workbench()
        >>> x = w.number("x", 3, 9)
        >>> w.slack(x).room
        6
        """
        if self.low is not None and self.high is not None:
            return self.high - self.low
        return len(self.values) - 1 if self.values else None

    def headline(self) -> str:
        if self.room is None:
            says = f"no plan was found; that there is one is {NOT_REFUTED}"
            return f"The room of {self.cell}: {'nothing fits' if self.complete else says}."
        return f"Over all plans{'' if self.complete else f' (more is {NOT_REFUTED})'}:"

    def heads(self) -> Sequence[str]:
        ends = ("values",) if self.low is None else ("least", "greatest")
        return ("cell", *ends, "room")

    def rows(self) -> Sequence[Sequence[object]]:
        if self.room is None:
            return []
        ends = (self.values,) if self.low is None else (self.low, self.high)
        return [(self.cell, *ends, self.room)]


class Critical(Shown, Premises):
    """Premises that leave a cell no less than `value`, or no more: a minimal set of them, none of
    which can be left out. Iterates over their names.

    >>> w = Workbench()
    >>> x = w.number("x", 0, 9)
    >>> w.require(x >= 3, under="much")
    >>> print(w.critical(x))
    x can't be less than 3 because of:
      premise  says
      much     x >= 3
    """

    cell: str
    sort: str
    value: int
    texts: dict[str, str]

    def headline(self) -> str:
        than = "less" if self.sort == LEAST else "more"
        if not self:
            return f"{self.cell} can't be {than} than {self.value}, whatever is believed."
        others = "" if self.complete else f" (that fewer would do is {NOT_REFUTED})"
        return f"{self.cell} can't be {than} than {self.value} because of{others}:"

    def heads(self) -> Sequence[str]:
        return ("premise", "says")

    def rows(self) -> Sequence[Sequence[object]]:
        return [(premise, shortened(self.texts[premise])) for premise in self]

    def __str__(self) -> str:
        return Shown.__str__(self)

    def __repr__(self) -> str:
        return Shown.__str__(self)


def find_slack(
    model: Model, cell: CellLike, seconds: float | None, progress: Progress | None
) -> Slack:
    """The room of a cell over all plans with what is believed."""
    name, clock = whole_named(model, cell), Clock(seconds, progress)
    if seeks(model):
        with suppress(Unlike), Seeker(model, clock) as seeker:
            return _slack_by(seeker, name)
    return _slack_by_cases(model, name, clock)


def _slack_by_cases(model: Model, name: str, clock: Clock) -> Slack:
    """The room of a cell by bounds that close in, or by cases."""
    trial = Trial(model, model.believed(), clock)
    if not isinstance(trial.rooms[name], NumberRoom):
        return _slack_of_names(trial, name)
    ends = [Bounding(trial, model.believed(), name, sort) for sort in (LEAST, GREATEST)]

    def run() -> None:
        for bounding in ends:
            # (one plan is a beginning for both)
            bounding.run(ends[0].fits)

    def result() -> Slack:
        evidence = Evidence.of(trial)
        claims = [claim for bounding in ends if (claim := bounding.show(evidence))]
        proved = all(bounding.proved for bounding in ends)
        certificate = evidence.certificate(claims)
        return Slack(name, ends[0].value, ends[1].value, (), proved, certificate)

    return tried(trial, run, result)


def _slack_by(seeker: Seeker, cell: str) -> Slack:
    """The same by a program that searches for plans itself. Raises Unlike."""
    model, clock = seeker.model, seeker.clock
    if not seeker.is_number(cell):
        plans = listed_in_turns(seeker, [cell], len(model.candidates(cell) or ""))
        values = tuple(plan[cell] for plan in plans)
        return Slack(cell, None, None, values, plans.complete, plans._certificate)
    ends, found = [Ending(seeker, cell, sort) for sort in (LEAST, GREATEST)], list[Slack]()

    def run() -> None:
        for seconds in clock.turns():
            if all([ending.run(seconds / 2) for ending in ends]) or clock.is_over():
                break
            found.append(_slack_by_cases(model, cell, clock.turn(seconds)))
            if found[-1].complete:
                break

    def result() -> Slack:
        if found and found[-1].complete:
            return found[-1]
        known = [ending.known() for ending in ends]
        values = [optimum.value for optimum, _, _ in known]
        # (of two ends either plan shows that the number can be that much)
        there = [value for value in values if value is not None]
        low, high = (min(there), max(there)) if there else (None, None)
        proved = all(optimum.proved for optimum, _, _ in known)
        claims = [claim for _, claims, _ in known for claim in claims]
        plans = [fits for _, _, plans in known for fits in plans]
        return Slack(cell, low, high, (), proved, seeker.certificate(claims, plans))

    return tried_by(clock, run, result)


def _slack_of_names(trial: Trial, cell: str) -> Slack:
    listing = PlanListing(trial, [cell], len(trial.rooms[cell] or ""))

    def result() -> Slack:
        plans = listing.result()
        values = tuple(plan[cell] for plan in plans)
        return Slack(cell, None, None, values, plans.complete, plans._certificate)

    return tried(trial, listing.run, result)


def find_critical(
    model: Model, cell: CellLike, sort: str, seconds: float | None, progress: Progress | None
) -> Critical:
    """Premises that leave a cell no less than its least value over all plans, or no more than its
    greatest. Raises NothingFits where there is no plan."""
    if sort not in (LEAST, GREATEST):
        raise ValueError(f"the end is {LEAST!r} or {GREATEST!r}, and not {sort!r}")
    name, clock = whole_named(model, cell), Clock(seconds, progress)
    found = _critical_sought(model, name, sort, clock)
    found = found or _critical_by_cases(model, name, sort, clock)
    if isinstance(found, Optimum):
        what = f"there is no {sort} {name} to be explained"
        raise NothingFits(f"{what}: {found.headline()}")
    return found


def _critical_sought(model: Model, name: str, sort: str, clock: Clock) -> Critical | Optimum | None:
    """The same by a program that searches for plans itself, or what is known of the end where there
    is nothing to explain; None where that program can't tell."""
    if blames(model):
        with suppress(Unlike), Seeker(model, clock) as seeker:
            return _critical_by(seeker, name, sort)
    return None


def _critical_by(seeker: Seeker, cell: str, sort: str) -> Critical | Optimum:
    """The same by a program that searches, and where that takes long by cases too, in turns. Raises
    Unlike."""
    model, clock, ending = seeker.model, seeker.clock, Ending(seeker, cell, sort)
    found, others = list[Leaving](), list[Critical | Optimum]()

    def asked(seconds: float | None) -> bool:
        """Goes on for so many seconds; whether all is known then."""
        if not found and ending.run(seconds):
            if ending.value is None or abs(ending.value) >= MOST_NUMBER:
                return True
            beyond = {seeker.lines[cell]: beyond_of(sort, ending.value)}
            found.append(Leaving(seeker, beyond, ending.because))
        return bool(found) and found[0].run(seconds)

    def run() -> None:
        for seconds in clock.turns():
            if asked(seconds) or clock.is_over():
                break
            # (where the end is known, the search is getting on: so it has most of the time)
            part = seconds / 8 if found else seconds
            others.append(_critical_by_cases(model, cell, sort, clock.turn(part)))
            if _is_all(others[-1]):
                break

    def result() -> Critical | Optimum:
        is_known = bool(found) and found[0].is_known
        if others and not is_known and (_is_all(others[-1]) or not found):
            return others[-1]
        optimum, _, plans = ending.known()
        if not found or optimum.value is None:
            return optimum
        made = _made(model, optimum, found[0].premises, found[0].is_known)
        made._certificate = _shown_by(seeker, made, found[0], plans[0])
        return made

    return tried_by(clock, run, result)


def _is_all(found: Critical | Optimum) -> bool:
    """Whether nothing more is to be found out."""
    return found.complete if isinstance(found, Critical) else found.proved


def _shown_by(seeker: Seeker, made: Critical, leaving: Leaving, best: Fits) -> Certificate | None:
    """What shows that nothing beyond a best plan fits with these premises, and does without any one
    of them."""
    evidence, model = seeker.evidence(), seeker.model
    evidence.add_plan(model.believed(), best)
    for name, fits in leaving.plans.items():
        evidence.add_plan([it for it in made if model.line_name(it) != name], fits)
    told = [[cell, str(held)] for cell, held in leaving.told.items()]
    evidence.trees.append(([leaving.names, told], BY_SEARCH))
    optimum: dict[str, object] = {"given": leaving.names, "sort": made.sort}
    optimum |= {"cell": seeker.lines[made.cell], "value": made.value, "bound": made.value}
    least = [("conflicts", _least_claim(seeker.given(), leaving.names, told))]
    return evidence.certificate([*(least if made.complete else []), ("optimum", optimum)])


def _made(model: Model, optimum: Optimum, names: Iterable[str], is_least: bool) -> Critical:
    """The premises of an optimum, as yet without a certificate."""
    assert optimum.value is not None
    made = Critical(names)
    made.cell, made.sort, made.value = optimum.cell, optimum.sort, optimum.value
    made.texts = {premise: model.text(premise) for premise in made}
    made.complete = is_least
    return made


def _least_claim(
    given: Sequence[str], names: Sequence[str], told: Sequence[Sequence[str]]
) -> dict[str, object]:
    """The claim that premises can't all hold within what is told, and can without any of them."""
    sets = {"sets": [names], "outs": [], "full": False}
    return {"given": given, "keep": [], "told": told, **sets}


def _critical_by_cases(model: Model, name: str, sort: str, clock: Clock) -> Critical | Optimum:
    """The same by bounds that close in, and by trying sets of premises."""
    trial = Trial(model, (), clock)
    bounding = bounding_in(trial, model.believed(), name, sort)
    found: list[tuple[Exploring, Refuted]] = []

    def run() -> None:
        bounding.run()
        beyond = bounding.beyond_value
        if not bounding.proved or beyond is None:
            return
        explored = Exploring(trial, model.believed(), {}, [(name, beyond)])
        refuted = explored.try_out(explored.all)
        if isinstance(refuted, Refuted):
            found.append((explored, explored.shrunk(refuted)))

    def result() -> Critical | Optimum:
        if not found or bounding.value is None:
            return bounding.result()
        explored, refuted = found[0]
        names = explored.names(refuted.mask)
        made = _made(model, bounding.result(), names, refuted.least)
        made._certificate = _certificate(bounding, explored, refuted)
        return made

    return tried(trial, run, result)


def _certificate(bounding: Bounding, explored: Exploring, refuted: Refuted) -> Certificate | None:
    """What shows that nothing beyond fits with these premises, and does without any one of them."""
    evidence = Evidence.of(explored.trial)
    told = [[evidence.cells[bounding.cell], str(bounding.beyond_value)]]
    evidence.add_tree(explored.names(refuted.mask), told, refuted.tree)
    for bit in bits_of(refuted.mask) if refuted.least else ():
        mask = refuted.mask & ~bit
        kept = next(kept for kept in explored.plans if kept.mask & mask == mask)
        evidence.add_plan(explored.names(kept.mask), kept.fits)
    names = evidence.lines_of(explored.names(refuted.mask))
    claim = _least_claim(evidence.lines_of(explored.premises), names, told)
    least = ("conflicts", claim) if refuted.least else ("fails", {"given": names, "told": told})
    best = bounding.show(evidence)
    return evidence.certificate([least, *([best] if best else [])])
