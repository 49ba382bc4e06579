"""How answers are made narrower than by one run: an end of a quantity is told, and where the
program contradicts that, in cases that cover it, the end is taken off.
"""

from collections.abc import Collection, Sequence

from propbench.questions.outcomes import Fork
from propbench.questions.rooms import NumberRoom, halves, room_left
from propbench.questions.trial import Case, Trial
from propbench.replies import Contradiction
from propbench.values import Held

# A slice is tried in so many cases within one another, and no finer than this part of the width.
_DEPTH, _FINEST = 7, 256


class CantAllHold(Exception):
    """What is believed can't all hold: these premises, as lines name them."""

    def __init__(self, names: Collection[str], tree: Fork | None) -> None:
        super().__init__(names)
        self.names, self.tree = frozenset(names), tree


class Narrowing:
    """What is left for quantities with some premises, in a trial."""

    def __init__(
        self,
        trial: Trial,
        premises: Sequence[str],
        related: Sequence[str],
        told: Sequence[Case] = (),
        depth: int = _DEPTH,
    ) -> None:
        """Cases are those of `related` quantities, those in front first. What is `told` is supposed
        beside the premises."""
        self.trial, self.premises = trial, tuple(premises)
        self.names: set[str] = set()
        self._related, self._told, self._depth = list(related), tuple(told), depth
        self._base: dict[str, Held] = {}

    def begin(self) -> None:
        """Looks at what is left by one run. Raises Impossible."""
        seen = self.trial.look(self.premises, self._told)
        if isinstance(seen, Contradiction):
            raise CantAllHold(seen.premises, None)
        self._base = seen if isinstance(seen, dict) else {}

    def left(self, cell: str) -> NumberRoom | None:
        """What is left for a quantity by one run; None where nothing is known."""
        room = room_left(self._base[cell], None) if cell in self._base else None
        return room if isinstance(room, NumberRoom) else None

    def shaved(
        self, cell: str, room: NumberRoom
    ) -> tuple[NumberRoom, list[tuple[str, Fork | None]]]:
        """A room of a quantity without the slices at its ends that can't be, and these slices with
        the cases that show it. Raises Impossible where nothing is left."""
        slices: list[tuple[str, Fork | None]] = []
        finest = max(1, len(room) // _FINEST)
        for depth in sorted({0, self._depth}):
            size = len(room) // 2
            while size >= finest and not self.trial.clock.is_over():
                narrowed = self._cut(cell, room, size, depth, slices)
                if narrowed.high < narrowed.low:
                    raise CantAllHold(self.names, Fork(self.trial.cell_line[cell], tuple(slices)))
                if len(narrowed) == len(room):
                    size //= 2
                room = narrowed
                size = min(size, len(room))
                self.trial.clock.tell(f"{cell}: {len(room)} steps are left")
        return room, slices

    def _cut(
        self,
        cell: str,
        room: NumberRoom,
        size: int,
        depth: int,
        slices: list[tuple[str, Fork | None]],
    ) -> NumberRoom:
        """The room without a slice of this size at either end, where that can't be."""
        low, high = room.low, room.high
        first = NumberRoom(low, low + size - 1)
        if self._is_refuted(cell, first, depth, slices):
            low += size
        last = NumberRoom(high - size + 1, high)
        if high - size >= low - 1 and self._is_refuted(cell, last, depth, slices):
            high -= size
        return NumberRoom(low, high)

    def _is_refuted(
        self, cell: str, part: NumberRoom, depth: int, slices: list[tuple[str, Fork | None]]
    ) -> bool:
        refuted, tree = self.refuted(((cell, part),), depth)
        if refuted:
            slices.append((str(part), tree))
        return refuted

    def refuted(self, told: tuple[Case, ...], depth: int) -> tuple[bool, Fork | None]:
        """Whether the program contradicts what is supposed, in some cases that cover it; and these
        cases."""
        if self.trial.clock.is_over():
            return False, None
        seen = self.trial.look(self.premises, (*self._told, *told))
        if isinstance(seen, Contradiction):
            self.names.update(seen.premises)
            return True, None
        if not isinstance(seen, dict) or depth == 0:
            return False, None
        cell = self._widest(seen, told)
        if cell is None:
            return False, None
        known = self.trial.known((*self._told, *told))[cell]
        held = room_left(seen[cell], known)
        cases = []
        for part in halves(known, held or known):
            is_out, tree = self.refuted((*told, (cell, part)), depth - 1)
            if not is_out:
                return False, None
            cases.append((str(part), tree))
        return True, Fork(self.trial.cell_line[cell], tuple(cases))

    def _widest(self, seen: dict[str, Held], told: Sequence[Case]) -> str | None:
        """The quantity of which the most is left, of what was left at first; None where that is
        nothing to speak of."""
        best, cell = 0.0, None
        first = told[0][0] if told else None
        for place, name in enumerate(self._related):
            room, base = room_left(seen[name], None), self.left(name)
            if name == first or base is None or not isinstance(room, NumberRoom) or len(room) < 2:
                continue
            share = len(room) / len(base) / (1 + place)
            if share > best:
                best, cell = share, name
        return cell
