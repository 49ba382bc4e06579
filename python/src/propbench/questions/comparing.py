"""What differs between two states of a workbench, or between two workbenches, and why."""

from collections.abc import Iterable, Mapping, Sequence
from dataclasses import dataclass

from propbench.clock import Clock
from propbench.model.answers import Answer
from propbench.questions.asking import answered
from propbench.questions.bench import Bench
from propbench.questions.certificate import Certificate
from propbench.questions.scenarios import AskedTable, Row
from propbench.questions.shown import Shown, listed, said, shortened


@dataclass(frozen=True)
class Snapshot:
    """What a workbench stated and answered at a time: for each premise what it says and whether it
    is believed, for each cell the answer; or the premises of a conflict. It can be pickled. The
    certificate is of the answers, or the conflict. It is `complete` where there was time for all.
    """

    says: Mapping[str, str]
    believed: frozenset[str]
    answers: Mapping[str, Answer]
    conflict: tuple[str, ...] | None
    certificate: Certificate | None
    complete: bool = True

    @property
    def is_known(self) -> bool:
        """Whether there is an answer at all."""
        return self.complete or bool(self.answers) or self.conflict is not None


@dataclass(frozen=True)
class Difference:
    """A cell whose answer differs, or a premise. `why` has the premises behind the answer now."""

    what: str
    before: object
    now: object
    why: tuple[str, ...] = ()


class Differences(Shown, list[Difference]):
    """What differs: first what was stated, then what follows for the cells. It is `complete` where
    both are known as far as they are settled. The certificate is of the answers now.

    >>> w = Workbench()
    >>> x = w.number("x", 0, 9)
    >>> before = w.snapshot()
    >>> w.require(x >= 3, under="much")
    >>> print(w.diff(before).headline())
    2 things that differ:
    """

    def __init__(
        self, found: Iterable[Difference], certificate: Certificate | None, complete: bool
    ) -> None:
        super().__init__(found)
        self._certificate, self.complete = certificate, complete

    def headline(self) -> str:
        until = "" if self.complete else ", as far as is known"
        if not self:
            return f"Nothing differs{until}."
        one = len(self) == 1
        return f"{len(self)} thing{'' if one else 's'} that differ{'s' if one else ''}{until}:"

    def heads(self) -> Sequence[str]:
        return ("what", "before", "now", "because of")

    def rows(self) -> Sequence[Sequence[object]]:
        return [(each.what, each.before, each.now, shortened(said(each.why))) for each in self]


def snapshot_of(bench: Bench, clock: Clock) -> Snapshot:
    """What a workbench states and answers now, as far as there is time. Raises Interrupted."""
    asking = _asking(bench, clock)
    return answered(asking.here, lambda: _snapshot(bench, asking))


def difference_to(before: Snapshot, bench: Bench, clock: Clock) -> Differences:
    """In what a workbench differs from a snapshot, as far as there is time. Raises Interrupted."""
    asking = _asking(bench, clock)
    return answered(asking.here, lambda: differences(before, _snapshot(bench, asking)))


def difference_between(one: Bench, other: Bench, clock: Clock) -> Differences:
    """In what another workbench differs from one, as far as there is time. Raises Interrupted."""
    askings = _asking(one, clock), _asking(other, clock)

    def run() -> None:
        for asking in askings:
            asking.here()

    def result() -> Differences:
        return differences(_snapshot(one, askings[0]), _snapshot(other, askings[1]))

    return answered(run, result)


def _asking(bench: Bench, clock: Clock) -> AskedTable:
    """The one question of a snapshot."""
    return AskedTable(bench, {"now": {}}, bench.model.cells(), clock)


def _snapshot(bench: Bench, asking: AskedTable) -> Snapshot:
    """The snapshot of what was asked."""
    model, table = bench.model, asking.result()
    row = table.get("now", Row())
    says = {premise: model.exactly(premise) for premise in model.premises()}
    conflict = None if row.conflict is None else row.conflict.names
    believed = frozenset(model.believed())
    return Snapshot(says, believed, dict(row), conflict, table._certificate, table.complete)


def differences(before: Snapshot, now: Snapshot) -> Differences:
    """In what the second differs from the first; in no answers, where one of them is a conflict, or
    there was no time for them."""
    found = [
        Difference(f"premise {premise}", *states)
        for premise in {**before.says, **now.says}
        if len(set(states := (_state(before, premise), _state(now, premise)))) > 1
    ]
    is_known = before.is_known and now.is_known
    if is_known and (before.conflict is None) != (now.conflict is None):
        found.append(Difference("what is believed", _fit(before), _fit(now), now.conflict or ()))
    # (At a conflict there are no answers that could differ.)
    is_fit = is_known and before.conflict is None and now.conflict is None
    for cell in {**before.answers, **now.answers} if is_fit else ():
        old, new = before.answers.get(cell), now.answers.get(cell)
        values = _value(old), _value(new)
        if values[0] != values[1]:
            found.append(Difference(cell, *values, new.because if new else ()))
    return Differences(found, now.certificate, before.complete and now.complete)


def _state(snapshot: Snapshot, premise: str) -> str:
    """What a premise says, or that it says nothing."""
    if premise not in snapshot.says:
        return "not there"
    says = snapshot.says[premise]
    return says if premise in snapshot.believed else f"kicked out ({says})"


def _fit(snapshot: Snapshot) -> str:
    if snapshot.conflict is None:
        return "fits" if snapshot.complete else "not settled"
    return f"conflict: {listed(snapshot.conflict)}"


def _value(answer: Answer | None) -> object:
    return None if answer is None else said(answer.value)
