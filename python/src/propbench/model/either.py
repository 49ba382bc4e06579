"""Where one or another of some truths has to hold: how much room is left by either way.

Of two tasks of one person either comes first: where both ways leave little room, it is well to know
soon which it is.
"""

from collections.abc import Mapping
from dataclasses import dataclass

from propbench.model.core import in_core
from propbench.model.nodes import Declared, Node, Op
from propbench.model.ranges import Range, Ranges, declared_range


@dataclass(frozen=True)
class Either:
    """A truth, and those of which one has to hold where it doesn't; none where that isn't so."""

    truth: Node
    others: tuple[Node, ...]

    def rooms(self, ends: Mapping[str, Range]) -> tuple[int, int] | None:
        """How far apart the numbers may be that it compares, where it holds, and that one of the
        others does where it doesn't, by the ends of cells. None where these are no comparisons."""

        def of_cell(cell: Declared) -> Range:
            return ends.get(cell.name) or declared_range(cell)

        ranges = Ranges(of_cell)
        holds = _room(self.truth, ranges)
        others = [room for each in self.others if (room := _room(each, ranges)) is not None]
        return (holds, max(others)) if holds is not None and others else None


def _room(truth: Node, ranges: Ranges) -> int | None:
    """How far apart two numbers may be, of which one is less than the other, or isn't."""
    core = in_core(truth)
    holds = core.op is not Op.NOT
    alone = core if holds else core.args[0]
    if alone.op is not Op.RAW or alone.args[0].op is not Op.LESS:
        return None
    (least, most), (other_least, other_most) = map(ranges.of, alone.args[0].args)
    return other_most - least if holds else most - other_least
