"""Outliers: the minimal sets of readings to give up so that nothing speaks against the others."""

from collections.abc import Collection, Iterable, Mapping, Sequence
from contextlib import suppress
from dataclasses import dataclass
from decimal import Decimal
from fractions import Fraction

from propbench.measuring.narrowing import CantAllHold, Narrowing
from propbench.model.events import Read
from propbench.model.measures import Interval, Measure, rounded
from propbench.program import OutOfTime
from propbench.questions.asking import tried
from propbench.questions.certificate import Certificate, Evidence
from propbench.questions.clock import Clock
from propbench.questions.conflicts import Premises
from propbench.questions.hitting import Hitting, bits_of
from propbench.questions.model import Model
from propbench.questions.outcomes import Fork
from propbench.questions.shown import NOT_REFUTED, Shown, shortened
from propbench.questions.trial import Trial

# The readings that a premise states, by the premise.
Readings = Mapping[str, Sequence[Read]]


@dataclass(frozen=True)
class Off:
    """A reading that is given up: what the others leave for its quantity, and how far that is from
    what was read, in the quantity's unit; None where they leave more."""

    left: Interval
    by: Decimal | None


class Outlier(Premises):
    """Readings without which nothing speaks against the others, and none of which can come back.
    `off` has how far off each is."""

    off: Mapping[str, Off]
    share: Fraction


class Outliers(Shown, list[Outlier]):
    """The minimal sets of readings to give up: the fewest first, and of as many those that are off
    by more, as compared with their tolerance. The certificate shows conflicts among readings."""

    def __init__(
        self,
        found: Iterable[Outlier],
        complete: bool,
        texts: Mapping[str, str],
        certificate: Certificate | None,
    ) -> None:
        super().__init__(found)
        self.complete = complete
        self._texts = texts
        self._certificate = certificate

    def headline(self) -> str:
        if not self:
            no_reading = "What is no reading can't hold, whatever was read."
            return no_reading if self.complete else "In this time no way was found."
        if not self[0]:
            return "No reading has to be given up: nothing speaks against any of them."
        number = f"{len(self)} way{'' if len(self) == 1 else 's'}"
        others = "" if self.complete else f" (others are {NOT_REFUTED})"
        return f"{number} to give up readings so that nothing speaks against the others{others}:"

    def heads(self) -> Sequence[str]:
        return ("way", "give up", "says", "others leave", "off by at least")

    def rows(self) -> Sequence[Sequence[object]]:
        return [
            (
                str(number) if place == 0 else "",
                premise,
                shortened(self._texts[premise]),
                outlier.off[premise].left if premise in outlier.off else "",
                _by(outlier, premise),
            )
            for number, outlier in enumerate(self, 1)
            for place, premise in enumerate(outlier)
        ]


def _by(outlier: Outlier, premise: str) -> str:
    off = outlier.off.get(premise)
    return "" if off is None or off.by is None else f"{off.by:f} {off.left.unit}"


class Weeding:
    """The search for outliers: readings are given up, the fewest first, until what is left is not
    contradicted; a contradiction is shrunk to a least one."""

    def __init__(self, trial: Trial, readings: Readings, related: Sequence[str]) -> None:
        self.trial, self.readings, self._related = trial, readings, related
        self.names = list(readings)
        self.kept = list(trial.basis)
        self._hitting = Hitting([1] * len(self.names))
        self.conflicts: list[tuple[int, Fork | None]] = []
        self.found: list[Outlier] = []
        self.complete = False

    def premises(self, mask: int) -> list[str]:
        """The readings of a set."""
        return [name for place, name in enumerate(self.names) if mask >> place & 1]

    def step(self) -> bool:
        """Finds one conflict or outlier more; whether there may be others, and time is left."""
        hit = self._hitting.next(self.trial.clock.is_over)
        if hit is None:
            self.complete = self._hitting.is_done
            return False
        rest = (1 << len(self.names)) - 1 & ~hit
        found = self._refuted(rest)
        if found is not None:
            self.conflicts.append(self._shrunk(*found))
            self._hitting.learn(self.conflicts[-1][0])
        elif not self.trial.clock.is_over():
            # (else it was not looked at to the end what speaks against the others)
            self.found.append(self._outlier(hit))
            self._hitting.finish(hit)
        return not self.trial.clock.is_over()

    def _refuted(self, mask: int) -> tuple[int, Fork | None] | None:
        """Readings of a set that can't all hold, and the cases that show it; None where nothing
        speaks against them."""
        narrowing = Narrowing(self.trial, [*self.kept, *self.premises(mask)], self._related)
        tree: Fork | None = None
        try:
            narrowing.begin()
            is_out, tree = narrowing.refuted((), _DEPTH)
            if not is_out:
                return None
            named = narrowing.names
        except CantAllHold as impossible:
            named = set(impossible.names)
        lines = [self.trial.line[name] in named for name in self.names]
        return sum(1 << place for place, is_in in enumerate(lines) if is_in) & mask, tree

    def _shrunk(self, mask: int, tree: Fork | None) -> tuple[int, Fork | None]:
        """A minimal conflict within a set, or a smaller one where the time is over."""
        for bit in reversed(bits_of(mask)):
            if mask & bit and not self.trial.clock.is_over():
                found = self._refuted(mask & ~bit)
                if found is not None:
                    mask, tree = found
        return mask, tree

    def _outlier(self, hit: int) -> Outlier:
        """What is known of readings that are given up, against the others of which nothing
        speaks."""
        return _outlier_of(self.trial, self.readings, self.premises(hit))


# A set of readings is tried in so many cases within one another.
_DEPTH = 3


def _outlier_of(trial: Trial, readings: Readings, named: Collection[str]) -> Outlier:
    """What is known of readings that are given up, where nothing speaks against the others; in a
    trial that believes all that is no reading."""
    # (named as the user first named them, in whatever order they are tried)
    made = Outlier(name for name in trial.premises if name in named)
    off: dict[str, Off] = {}
    share = Fraction(0)
    rest = [name for name in readings if name not in named]
    narrowing = Narrowing(trial, [*trial.basis, *rest], ())
    with suppress(OutOfTime):
        narrowing.begin()
    for name in made:
        for read in readings[name]:
            room = narrowing.left(read.cell.name)
            if room is not None and read.cell.measure is not None:
                measure = read.cell.measure
                ends = measure.reals(room.low, room.high)
                off[name], more = _off(read, measure, ends)
                share += more
    made.off, made.share = off, share
    return made


def _off(read: Read, measure: Measure, ends: tuple[Fraction, Fraction]) -> tuple[Off, Fraction]:
    """How far a reading is from what is left, in the unit, and as a part of its tolerance."""
    reading = read.reading
    low, high = max(ends[0], measure.low), min(ends[1], measure.high)
    gap = max(low - reading.high, reading.low - high)
    left = measure.interval(min(low, high), max(low, high))
    if gap <= 0:
        return Off(left, None), Fraction(0)
    tolerance = max(reading.high - reading.low, measure.step)
    return Off(left, _short(gap / measure.factor)), gap / tolerance


def _short(number: Fraction) -> Decimal:
    """A number of three digits or fewer, rounded down."""
    exact = rounded(number, False)
    digits = Decimal(1).scaleb(exact.adjusted() - 2)
    return Decimal(int(exact / digits)) * digits


def find_outliers(
    model: Model, readings: Readings, related: Sequence[str], most: int, clock: Clock
) -> Outliers:
    """The minimal sets of readings to give up, so many at the most."""
    kept = [name for name in model.believed() if name not in readings]
    # (a search for points, as the program's own for conflicts, has no end among as many numbers as
    # a quantity may be; so it is asked what follows from the readings, without any point)
    trial = Trial(model, kept, clock)
    weeding = Weeding(trial, readings, related)

    def run() -> None:
        while weeding.step() and len(weeding.found) < most:
            trial.clock.tell(f"{len(weeding.found)} ways, {len(weeding.conflicts)} conflicts")

    def result() -> Outliers:
        evidence, claims = Evidence.of(trial), []
        for mask, tree in weeding.conflicts:
            premises = [*weeding.kept, *weeding.premises(mask)]
            evidence.add_tree(premises, [], tree)
            claims.append(("fails", {"given": evidence.lines_of(premises), "told": []}))
        certificate = evidence.certificate(claims)
        texts = {name: model.text(name) for name in readings}
        return Outliers(_ordered(model, weeding.found), weeding.complete, texts, certificate)

    return tried(trial, run, result)


def _ordered(model: Model, found: Iterable[Outlier]) -> list[Outlier]:
    """The fewest first, of as many those that are off by more. Where two are as good, it is by the
    order of the user's premises, however they were tried."""
    place = {name: number for number, name in enumerate(model.premises())}
    return sorted(found, key=lambda it: (len(it), -it.share, [place[name] for name in it]))
