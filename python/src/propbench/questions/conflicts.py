"""Conflicts, minimal sets of premises that can't all hold, and repairs, minimal sets to give up."""

from collections.abc import Callable, Iterable, Iterator, Mapping, Sequence
from dataclasses import dataclass, replace
from numbers import Real

from propbench.clock import Clock, Progress
from propbench.questions.asking import AnyResult, premises_named, tried
from propbench.questions.blaming import (
    ALL,
    BlamedSets,
    asked_by,
    by_cost,
    certificate_of,
    evidence_of,
)
from propbench.questions.certificate import Certificate, Evidence
from propbench.questions.exploring import Exploring, Refuted
from propbench.questions.hitting import bits_of
from propbench.questions.model import Model
from propbench.questions.seeking import Seeker, blames
from propbench.questions.shown import NOT_REFUTED, Shown, listed, shortened
from propbench.questions.trial import Trial


class Premises(frozenset[str]):
    """A set of premises, in the order in which the user first named them."""

    names: tuple[str, ...]

    def __new__(cls, names: Iterable[str]) -> "Premises":
        """The set of these names."""
        ordered = tuple(names)
        made = frozenset.__new__(cls, ordered)
        made.names = ordered
        return made

    def __iter__(self) -> Iterator[str]:
        return iter(self.names)

    def __str__(self) -> str:
        return listed(self.names) or "no premise"

    def __repr__(self) -> str:
        return str(self)


class Conflicting(Premises):
    """Premises that can't all hold. `least` says that without any one of them the rest has a plan;
    where no time was left to find these plans, it is False."""

    least: bool


class Repair(Premises):
    """Premises without which all the others have a plan, and none of which can come back. `cost` is
    the sum of their weights."""

    cost: float


class Conflicts(Shown, list[Conflicting]):
    """Conflicts among the premises that are believed: minimal sets that can't all hold. These are
    all there are where it is `complete`.

    >>> w = Workbench()
    >>> x = w.number("x", 0, 9)
    >>> w.require(x >= 3, under="much")
    >>> w.require(x <= 2, under="little")
    >>> print(w.conflicts())
    1 conflict, no others:
      conflict  premise  says
      1         much     x >= 3
                little   x <= 2
    """

    def __init__(
        self,
        found: Iterable[Conflicting],
        complete: bool,
        texts: Mapping[str, str],
        kept: Sequence[str],
        certificate: Certificate | None,
    ) -> None:
        super().__init__(found)
        self.complete = complete
        self._texts = texts
        self._given = _given(kept)
        self._certificate = certificate

    def headline(self) -> str:
        if self.complete and not self:
            return "No conflict: all that is believed fits together."
        if self.complete and not self[0]:
            return f"{self._given.capitalize()} can't hold, whatever else is believed."
        number = f"{len(self)} conflict{'' if len(self) == 1 else 's'}"
        return f"{number}, {'no others' if self.complete else f'others are {NOT_REFUTED}'}:"

    def heads(self) -> Sequence[str]:
        return ("conflict", "premise", "says")

    def rows(self) -> Sequence[Sequence[object]]:
        return [
            (str(number) if place == 0 else "", premise, shortened(self._texts[premise]))
            for number, conflict in enumerate(self, 1)
            for place, premise in enumerate(conflict)
        ]


class Repairs(Shown, list[Repair]):
    """Repairs of what is believed: minimal sets of premises to give up so that the others fit, the
    cheapest first. These are all there are where it is `complete`.

    >>> w = Workbench()
    >>> x = w.number("x", 0, 9)
    >>> w.require(x >= 3, under="much")
    >>> w.require(x <= 2, under="little")
    >>> print(w.repairs(weight={"little": 2}))
    2 repairs, no others:
      cost  give up
      1     much
      2     little
    """

    def __init__(
        self,
        found: Iterable[Repair],
        complete: bool,
        kept: Sequence[str],
        certificate: Certificate | None,
    ) -> None:
        super().__init__(found)
        self.complete = complete
        self._given = _given(kept)
        self._certificate = certificate

    def headline(self) -> str:
        if self.complete and not self:
            return f"There is no repair: {self._given} can't hold, whatever else is believed."
        if self.complete and not self[0]:
            return "Nothing has to be given up: all that is believed fits together."
        number = f"{len(self)} repair{'' if len(self) == 1 else 's'}"
        return f"{number}, {'no others' if self.complete else f'others are {NOT_REFUTED}'}:"

    def heads(self) -> Sequence[str]:
        return ("cost", "give up")

    def rows(self) -> Sequence[Sequence[object]]:
        return [(f"{repair.cost:g}", str(repair)) for repair in self]


def _given(kept: Sequence[str]) -> str:
    """What is not to be given up, in a sentence."""
    return "what always holds" if not kept else "what always holds with what is kept"


@dataclass(frozen=True)
class SetSearch:
    """How minimal sets are looked for: so many of a sort at the most, beside premises that are
    kept, and in so many seconds."""

    most: int
    keep: str | Iterable[str] = ()
    seconds: float | None = None
    progress: Progress | None = None

    def clock(self) -> Clock:
        """A clock that begins now."""
        return Clock(self.seconds, self.progress)


def find_conflicts(model: Model, search: SetSearch) -> Conflicts:
    """The minimal sets of believed premises that can't all hold beside those that are kept."""
    clock, most, texts = search.clock(), search.most, _texts(model)
    if blames(model):
        wanted = [("conflicts", most, "")]
        return asked_by(
            model,
            search.keep,
            clock,
            wanted,
            lambda by, told: _told_conflicts(by, told, texts, most),
        )
    return _searched(
        model,
        _explore(model, {}, search.keep, clock),
        lambda explored: len(explored.conflicts) < most,
        lambda explored: _conflicts(explored, texts, most),
    )


def find_both(
    model: Model, search: SetSearch, texts: Mapping[str, str] | None = None
) -> tuple[Conflicts, Repairs]:
    """The minimal conflicts and the minimal repairs, from one search. What premises say is told by
    these texts, where they have one."""
    clock, most, said = search.clock(), search.most, {**_texts(model), **(texts or {})}
    if blames(model):
        wanted = [("conflicts", most, ""), ("repairs", most, "")]
        return asked_by(
            model,
            search.keep,
            clock,
            wanted,
            lambda by, told: (
                _told_conflicts(by, told, said, most),
                _told_repairs(by, told, {}, most),
            ),
        )
    return _searched(
        model,
        _explore(model, {}, search.keep, clock),
        lambda explored: max(len(explored.conflicts), len(explored.repairs)) < most,
        lambda explored: (_conflicts(explored, said, most), _repairs(explored, {}, most)),
    )


def find_repairs(model: Model, weight: Mapping[str, float], search: SetSearch) -> Repairs:
    """The minimal sets of believed premises without which the others have a plan, by their cost;
    nothing is given up of what is kept."""
    _check_weight(model, weight)
    clock, most = search.clock(), search.most
    if blames(model):
        # (one more of the cheapest tells whether there are others; what no line says is sorted
        # here)
        said = by_cost(model, weight, premises_named(model, search.keep))
        count = most if not weight else most + 1 if said else ALL
        return asked_by(
            model,
            search.keep,
            clock,
            [("repairs", count, said)],
            lambda seeker, told: _told_repairs(seeker, told, weight, most),
        )
    return _searched(
        model,
        _explore(model, weight, search.keep, clock),
        lambda explored: len(explored.repairs) < most,
        lambda explored: _repairs(explored, weight, most),
    )


def _told_conflicts(
    seeker: Seeker, told: BlamedSets, texts: Mapping[str, str], most: int
) -> Conflicts:
    """The conflicts that a program has told, so many at the most."""
    found = []
    for names in [*told.conflicts, *told.unsettled][:most]:
        found.append(Conflicting(seeker.premises(names)))
        found[-1].least = names in told.conflicts
    complete = told.complete and len(told.conflicts) <= most
    shown = replace(told, conflicts=told.conflicts[:most], whole=complete and told.whole)
    kept = [name for name in seeker.model.believed() if seeker.model.line_name(name) in told.kept]
    certificate = certificate_of(evidence_of(seeker.model), shown, [], [])
    return Conflicts(found, complete, texts, kept, certificate)


def _told_repairs(
    seeker: Seeker, told: BlamedSets, weight: Mapping[str, float], most: int
) -> Repairs:
    """The repairs that a program has told, so many at the most and the cheapest first, those of the
    same cost in the order of their premises."""
    model = seeker.model
    place = {name: number for number, name in enumerate(model.premises())}
    found = []
    for names in told.repairs:
        found.append(Repair(seeker.premises(names)))
        found[-1].cost = sum(weight.get(premise, 1) for premise in found[-1])
    found.sort(key=lambda each: (each.cost, [place[name] for name in each]))
    del found[most:]
    complete = told.complete and len(told.repairs) <= most
    outs = [tuple(map(model.line_name, each)) for each in found]
    kept = [name for name in model.believed() if model.line_name(name) in told.kept]
    if not (complete and told.whole):
        told = replace(told, conflicts=(), unsettled=(), repairs=tuple(outs), whole=False)
    certificate = certificate_of(evidence_of(model), told, outs, [])
    return Repairs(found, complete, kept, certificate)


def _check_weight(model: Model, weight: Mapping[str, float]) -> None:
    if not isinstance(weight, Mapping):
        raise TypeError(f"the weight is a dict of premises and numbers: {weight!r} is none")
    premises_named(model, list(weight))
    for premise, value in weight.items():
        if isinstance(value, bool) or not isinstance(value, Real):
            raise TypeError(f"the weight of {premise} is no number: {value!r}")
        if not value >= 0:
            raise ValueError(f"the weight of {premise} is less than nothing: {value}")


def _conflicts(explored: Exploring, texts: Mapping[str, str], most: int) -> Conflicts:
    """The conflicts that are known, so many at the most."""
    found = []
    for refuted in explored.conflicts[:most]:
        found.append(Conflicting(explored.names(refuted.mask)))
        found[-1].least = refuted.least
    complete = explored.complete and len(explored.conflicts) <= most
    certificate = _certificate(explored, explored.conflicts[:most], [], complete)
    return Conflicts(found, complete, texts, explored.kept, certificate)


def _repairs(explored: Exploring, weight: Mapping[str, float], most: int) -> Repairs:
    """The repairs that are known, so many at the most and the cheapest first, those of the same
    cost in the order of their premises."""
    costs = {
        mask: sum(weight.get(premise, 1) for premise in explored.names(mask))
        for mask in explored.repairs
    }
    shown = sorted(explored.repairs, key=lambda mask: (costs[mask], bits_of(mask)))[:most]
    found = []
    for mask in shown:
        found.append(Repair(explored.names(mask)))
        found[-1].cost = costs[mask]
    complete = explored.complete and len(explored.repairs) <= most
    certificate = _certificate(explored, explored.conflicts, shown, complete)
    return Repairs(found, complete, explored.kept, certificate)


@dataclass
class _Known:
    """What the last search of a network has found out, and the lines that made the network: a
    question of the same goes on from there."""

    base: list[str]
    explored: Exploring


# Where a session keeps that.
_KNOWN = "conflicts"


def _explore(
    model: Model, weight: Mapping[str, float], keep: str | Iterable[str], clock: Clock
) -> Exploring:
    """The search for conflicts and repairs: a new one, or the last one of the same, which goes on.
    Its trial may have ended."""
    believed = model.believed()
    kept = set(premises_named(model, keep)) & set(believed)
    known = model.session.kept.get(_KNOWN)
    if isinstance(known, _Known) and known.base == list(model.base()):
        found = known.explored
        if set(found.kept) == kept:
            found.trial.clock = clock
            is_usable = found.complete or found.weights == dict(weight)
            return found if is_usable else found.weighing(weight)
    return Exploring(Trial(model, kept, clock), believed, weight)


def _searched(
    model: Model,
    explored: Exploring,
    lacks: Callable[[Exploring], bool],
    result: Callable[[Exploring], AnyResult],
) -> AnyResult:
    """The result of a search that goes on while something is lacking. What it has found out is kept
    where it ends by itself, and all of it is sure."""
    kept, trial = model.session.kept, explored.trial

    def run() -> None:
        # (a step that is interrupted leaves a search half done)
        kept.pop(_KNOWN, None)
        while lacks(explored) and explored.step():
            _tell(explored)
        if explored.is_sure:
            kept[_KNOWN] = _Known(list(model.base()), explored)

    if explored.complete or not lacks(explored):
        trial.close()
        return result(explored)
    trial.be_open()
    return tried(trial, run, lambda: result(explored))


def _tell(explored: Exploring) -> None:
    conflicts, repairs = len(explored.conflicts), len(explored.repairs)
    explored.trial.clock.tell(f"{conflicts} conflicts, {repairs} repairs so far")


def _texts(model: Model) -> dict[str, str]:
    return {premise: model.text(premise) for premise in model.premises()}


def _certificate(
    explored: Exploring, conflicts: Sequence[Refuted], outs: Sequence[int], full: bool
) -> Certificate | None:
    """What shows that these conflicts are least, and that these repairs are; and that there are no
    more where these are all. Conflicts that may not be least are shown as what can't hold."""
    evidence = Evidence.of(explored.trial)
    for refuted in conflicts:
        evidence.add_tree((*explored.kept, *explored.names(refuted.mask)), [], refuted.tree)
    least = [refuted.mask for refuted in conflicts if refuted.least]
    needed = [mask & ~bit for mask in least for bit in bits_of(mask)]
    needed += [explored.all & ~hit for hit in explored.repairs]
    for mask in needed:
        kept = next(kept for kept in explored.plans if kept.mask & mask == mask)
        evidence.add_plan((*explored.kept, *explored.names(kept.mask)), kept.fits)
    is_sure = len(least) == len(conflicts)

    def lines(mask: int) -> list[str]:
        return evidence.lines_of(explored.names(mask))

    kept_lines = evidence.lines_of(explored.kept)
    claim: dict[str, object] = {
        "given": [*kept_lines, *lines(explored.all)],
        "keep": kept_lines,
        "told": [],
        "sets": [lines(mask) for mask in least],
        "outs": [lines(hit) for hit in outs] if is_sure else [],
        "full": full,
    }
    says_something = claim["sets"] or claim["outs"] or full
    claims: list[tuple[str, dict[str, object]]] = [("conflicts", claim)] if says_something else []
    for refuted in conflicts:
        if not refuted.least:
            claims.append(("fails", {"given": [*kept_lines, *lines(refuted.mask)], "told": []}))
    if not is_sure:
        claims += [
            ("fits", {"given": [*kept_lines, *lines(explored.all & ~hit)], "told": []})
            for hit in outs
        ]
    return evidence.certificate(claims)
