"""What each premise is worth: what becomes of a cell where it is left out, or says half as much."""

from collections.abc import Iterable, Iterator, Sequence
from contextlib import suppress
from dataclasses import dataclass

from propbench.clock import Clock, Progress
from propbench.listing import CellStatement, told_by
from propbench.questions.asking import CellLike, answered, cell_named, tried, tried_by, whole_named
from propbench.questions.bench import Bench
from propbench.questions.bounding import Bounding, Optimum, bounding_in
from propbench.questions.certificate import Certificate, Evidence
from propbench.questions.changes import Change
from propbench.questions.ends import Ending
from propbench.questions.model import Model
from propbench.questions.outcomes import Fits
from propbench.questions.scenarios import AskedTable, Row
from propbench.questions.seeking import Claims, Seeker, Unlike, seeks
from propbench.questions.shown import Shown, shortened
from propbench.questions.trial import Trial
from propbench.values import Span, value_of
from propbench.words import MOST_NUMBER

# The row of the table of scenarios in which nothing is changed.
_NOW = ("", "now")
_OUT, _HALF = "left out", "halved"


@dataclass(frozen=True)
class Worth:
    """A premise, what it says, and what is left for the cell without it, and where each range that
    it tells is half as wide; None where that can't be asked."""

    premise: str
    says: str
    left_out: object
    halved: object = None


class Sensitivity(Shown, list[Worth]):
    """What each believed premise is worth to a cell, whose value now is `now`.

    >>> w = Workbench()
    >>> x = w.number("x", 0, 9)
    >>> w.require(x >= 3, under="much")
    >>> sensitivity = w.sensitivity(x)
    >>> print(sensitivity.now, sensitivity[0].left_out)
    3..9 0..9
    """

    def __init__(
        self,
        cell: str,
        now: object,
        found: Sequence[Worth],
        complete: bool,
        certificate: Certificate | None,
    ) -> None:
        super().__init__(found)
        self.cell, self.now, self.complete = cell, now, complete
        self._certificate = certificate

    def headline(self) -> str:
        now = "not known" if self.now is None else self.now
        return f"{self.cell} is {now}, and{'' if self.complete else ', as far as is known,'}:"

    def heads(self) -> Sequence[str]:
        return ("premise", "says", _OUT, _HALF)

    def rows(self) -> Sequence[Sequence[object]]:
        return [(each.premise, shortened(each.says), each.left_out, each.halved) for each in self]


def of_answers(
    bench: Bench, cell: CellLike, seconds: float | None, progress: Progress | None
) -> Sensitivity:
    """What becomes of the answer for a cell."""
    clock, model, name = Clock(seconds, progress), bench.model, cell_named(bench.model, cell)
    told = told_by(line for line in model.base() if line.split()[:1] == ["tell"]).premises
    scenarios = {_NOW: Change()}
    for premise in model.believed():
        scenarios[premise, _OUT] = Change(kick=(premise,))
        if halves := tuple(_halves(model, premise, told.get(model.line_name(premise), []))):
            scenarios[premise, _HALF] = Change(tell=halves)
    keys = {str(number): key for number, key in enumerate(scenarios)}
    asking = AskedTable(bench, dict(zip(keys, scenarios.values())), [name], clock)

    def result() -> Sensitivity:
        table = asking.result()
        rows = {keys[number]: row for number, row in table.items()}
        values = {key: _value(row, name) for key, row in rows.items()}
        worths = [
            Worth(
                premise,
                model.text(premise),
                values.get((premise, _OUT)),
                values.get((premise, _HALF)),
            )
            for premise in model.believed()
        ]
        return Sensitivity(name, values.get(_NOW), worths, table.complete, table._certificate)

    return answered(asking.here, result)


def _value(row: Row, cell: str) -> object:
    return f"conflict: {row.conflict}" if row.conflict is not None else row[cell].value


def _halves(
    model: Model, premise: str, told: Iterable[CellStatement]
) -> Iterator[tuple[object, ...]]:
    """What a premise tells of the user's numbers, with ranges that are half as wide."""
    cells = {model.cell_name(cell): cell for cell in model.cells()}
    for stated in told:
        held = value_of(stated.value, "span") if stated.value[-1:].isdigit() else None
        if not isinstance(held, Span) or -MOST_NUMBER in (held.low, -held.high):
            continue
        if stated.cell in cells and held.low < held.high:
            quarter = (held.high - held.low + 1) // 4
            yield premise, cells[stated.cell], held.low + quarter, held.high - quarter


def of_optimum(
    model: Model, cell: CellLike, sort: str, seconds: float | None, progress: Progress | None
) -> Sensitivity:
    """What becomes of the least or greatest value of a cell in any plan."""
    name, believed = whole_named(model, cell), list(model.believed())
    clock = Clock(seconds, progress)
    if seeks(model):
        with suppress(Unlike), Seeker(model, clock) as seeker:
            return _of_optimum_by(seeker, name, sort)
    trial = Trial(model, (), clock)
    found: dict[str, Bounding] = {}

    def run() -> None:
        for premise in ("", *believed):
            if trial.clock.is_over():
                break
            others = [each for each in believed if each != premise]
            found[premise] = bounding_in(trial, others, name, sort)
            found[premise].run()

    def result() -> Sensitivity:
        evidence = Evidence.of(trial)
        claims = [claim for each in found.values() if (claim := each.show(evidence))]
        certificate = evidence.certificate(claims)
        values = {premise: _best(each.result()) for premise, each in found.items()}
        worths = [Worth(each, model.text(each), values.get(each)) for each in believed]
        proved = len(found) == len(believed) + 1 and all(each.proved for each in found.values())
        return Sensitivity(name, values.get(""), worths, proved, certificate)

    return tried(trial, run, result)


def _of_optimum_by(seeker: Seeker, cell: str, sort: str) -> Sensitivity:
    """The same by a program that searches for the ends itself. Raises Unlike."""
    model, believed = seeker.model, list(seeker.model.believed())
    found: dict[str, tuple[Optimum, Claims]] = {}
    plans: list[tuple[Sequence[str], Fits]] = []

    def run() -> None:
        for premise in ("", *believed):
            if seeker.clock.is_over():
                break
            others = [each for each in believed if each != premise]
            with seeker.without([model.line_name(premise)] if premise else []):
                ending = Ending(seeker, cell, sort, others)
                ending.run()
                optimum, claims, fits = ending.known()
            found[premise] = optimum, claims
            plans.extend((others, each) for each in fits)

    def result() -> Sensitivity:
        evidence = seeker.evidence()
        for premises, fits in plans:
            evidence.add_plan(premises, fits)
        claims = [claim for _, told in found.values() for claim in told]
        worths = [
            Worth(each, model.text(each), _best(found[each][0]) if each in found else None)
            for each in believed
        ]
        proved = len(found) == len(believed) + 1 and all(it.proved for it, _ in found.values())
        now = _best(found[""][0]) if found else None
        return Sensitivity(cell, now, worths, proved, evidence.certificate(claims))

    return tried_by(seeker.clock, run, result)


def _best(optimum: Optimum) -> object:
    """The best value, with a mark where it isn't proved to be that."""
    if optimum.value is None:
        return "nothing fits" if optimum.proved else "not known"
    return optimum.value if optimum.proved else f"{optimum.value} (not proved)"
