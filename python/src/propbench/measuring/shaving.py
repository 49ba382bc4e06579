"""What follows for a quantity, as narrow as telling and forgetting makes it."""

from collections.abc import Mapping, Sequence
from dataclasses import dataclass
from typing import Protocol

from propbench.measuring.narrowing import CantAllHold, Narrowing
from propbench.measuring.quantities import MeasuredAnswer, Quantity, measured
from propbench.model.answers import Answer
from propbench.model.nodes import Declared
from propbench.questions.asking import tried
from propbench.questions.certificate import Certificate, Evidence
from propbench.questions.clock import Clock, Progress
from propbench.questions.model import Model
from propbench.questions.outcomes import Fork
from propbench.questions.rooms import NumberRoom, beyond
from propbench.questions.trial import Trial
from propbench.replies import Value


@dataclass(frozen=True)
class Shaved(MeasuredAnswer):
    """What follows for a quantity. `complete` is False where the time was over before no more could
    be taken off; `certificate` has the slices that were, and what shows each."""

    complete: bool = True
    _certificate: Certificate | None = None

    @property
    def certificate(self) -> Certificate:
        """What anyone can ask the program again. Raises ValueError where there is nothing to
        show."""
        if self._certificate is None:
            raise ValueError("there is nothing that a certificate could show")
        return self._certificate.finished()


class ShavedBench(Protocol):
    """What is asked of a workbench."""

    @property
    def model(self) -> Model:
        """The workbench as questions see it."""
        ...

    def _known(self, cell: Declared, clock: Clock) -> Answer:
        """What follows for a cell as far as there is time, or what is known of it."""
        ...

    def _related(self, cell: Declared) -> list[str]:
        """The quantities that laws tie to this one, by name, those without readings in front."""
        ...

    def _told(self, quantity: Quantity, room: NumberRoom, names: Sequence[str]) -> MeasuredAnswer:
        """What a cell that holds one of these numbers says, because of these premises."""
        ...

    def _conflict_of(self, names: Sequence[str], seconds: float | None) -> Exception:
        """That these premises can't all hold, made few as far as there is time."""
        ...


def find_shaved(
    bench: ShavedBench, quantity: Quantity, seconds: float | None, progress: Progress | None
) -> Shaved:
    """The narrowest that is found for a quantity."""
    model, name = bench.model, quantity.name
    believed = list(model.believed())
    clock = Clock(seconds, progress)
    trial = Trial(model, believed, clock)
    narrowing = Narrowing(trial, believed, bench._related(quantity.declared))
    state: dict[str, NumberRoom] = {}
    slices: list[tuple[str, Fork | None]] = []

    def run() -> None:
        narrowing.begin()
        room = narrowing.left(name)
        if room is not None:
            reply = trial.session.send(f"why {trial.cell_line[name]}")
            narrowing.names.update((reply.because or ()) if isinstance(reply, Value) else ())
            state["begun"] = state["room"] = room
            state["room"], found = narrowing.shaved(name, room)
            slices.extend(found)

    def result() -> Shaved:
        if "room" not in state:
            return Shaved(**vars(measured(bench._known(quantity.declared, clock))), complete=False)
        room, begun = state["room"], state["begun"]
        because = [each for each in believed if trial.line[each] in narrowing.names]
        told = bench._told(quantity, room, because)
        line = trial.cell_line[name]
        sides = {
            str(outside): Fork(line, tuple(_cases(outside, begun, slices)))
            for outside in beyond(room)
        }
        certificate = _shown_to_fail(trial, believed, line, sides)
        return Shaved(**vars(told), complete=not clock.is_over(), _certificate=certificate)

    try:
        return tried(trial, run, result)
    except CantAllHold as impossible:
        names = [each for each in believed if trial.line[each] in impossible.names]
        raise bench._conflict_of(names, clock.seconds_left()) from None


def _shown_to_fail(
    trial: Trial, believed: Sequence[str], line: str, sides: Mapping[str, Fork]
) -> Certificate | None:
    """What shows that the cell of a line has none of these values, each in its cases."""
    claims, evidence = [], Evidence.of(trial)
    for text, fork in sides.items():
        evidence.add_tree(believed, [[line, text]], fork)
        given = evidence.lines_of(believed)
        claims.append(("fails", {"given": given, "told": [[line, text]]}))
    return evidence.certificate(claims)


def _cases(
    outside: NumberRoom, begun: NumberRoom, slices: Sequence[tuple[str, Fork | None]]
) -> list[tuple[str, Fork | None]]:
    """What lies outside in cases: what one run leaves out, and the slices that were taken off."""
    cases: list[tuple[str, Fork | None]] = []
    below, above = beyond(begun)
    if outside.low == below.low:
        cases.append((str(below), None))
    else:
        cases.append((str(above), None))
    for text, tree in slices:
        low = int(text.split("..")[0])
        if outside.low <= low <= outside.high:
            cases.append((text, tree))
    return cases
