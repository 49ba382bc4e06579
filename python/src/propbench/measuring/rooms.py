"""What a law costs in width, since whole numbers stand for the reals in it."""

from collections.abc import Mapping
from dataclasses import dataclass
from fractions import Fraction

from propbench.measuring.parts import size_of
from propbench.measuring.stating import StatedLaw, quantities_in
from propbench.measuring.translation import LawInSteps
from propbench.model.measures import Interval
from propbench.model.nodes import Declared
from propbench.questions.clock import Clock
from propbench.questions.model import Model
from propbench.questions.rooms import NumberRoom, room_left
from propbench.questions.trial import Seen, Trial


@dataclass(frozen=True)
class GapSeen:
    """How far the two sides of a law may be apart before that is seen: by a `share` of the largest
    that its terms may be. `widths` has how wide each quantity's answer is where the others are
    known exactly; without the room it would be a single number."""

    law: str
    share: Fraction
    widths: Mapping[str, Interval]

    def __str__(self) -> str:
        told = f"{self.law} is told to {float(self.share):.1g} of its terms"
        widths = [f"  {name}: {float(it.width):.2g} {it.unit}" for name, it in self.widths.items()]
        return "\n".join([told, *widths])


def find_room(model: Model, stated: StatedLaw) -> GapSeen:
    """The room of a law that was stated: how wide each of its quantities is where the others are at
    the middle of what is left for them, is asked of the program."""
    told = stated.written
    cells = quantities_in(stated.law)
    widths: dict[str, Interval] = {}
    with Trial(model, list(model.believed()), Clock(None, None)) as trial:
        seen = trial.look(trial.basis, [])
        middles = {cell.name: _middle(seen, cell) for cell in cells}
        for cell in cells:
            others = [(name, room) for name, room in middles.items() if name != cell.name and room]
            left = _left(trial.look((), others), cell)
            if left is not None and cell.measure is not None:
                ends = cell.measure.reals(left.low, left.high)
                widths[cell.name] = cell.measure.interval(*ends)
    return GapSeen(stated.law.text, share_of(told), widths)


def _left(seen: Seen, cell: Declared) -> NumberRoom | None:
    room = room_left(seen[cell.name], None) if isinstance(seen, dict) else None
    return room if isinstance(room, NumberRoom) else None


def _middle(seen: Seen, cell: Declared) -> NumberRoom | None:
    left = _left(seen, cell)
    middle = None if left is None else (left.low + left.high) // 2
    return None if middle is None else NumberRoom(middle, middle)


def share_of(told: LawInSteps) -> Fraction:
    """The room of a law as a part of what its terms may be."""
    return told.radius.most / max(size_of(told.node), 1)
