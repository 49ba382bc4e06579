"""Contexts: where a constraint holds. Always, or while a gate is open.

A gated constraint stands between private copies of the cells that it speaks of. Between a cell and
its copy there is a gate both ways, open while the context's truth is `yes`. While that isn't known,
nothing comes into the copies, constants included, so nothing comes out: no value, and no conflict.
While it is `yes`, cell and copy hold the same, so the constraint tells as much as without a gate.
"""

from dataclasses import dataclass, field

from propbench.model.nodes import Node


@dataclass(eq=False)
class Context:
    """Where constraints hold. `gate` is the truth's name on a line, `yes` there while they do;
    `premise` is the one on whose lines may be told here, "" where these are to be fixed, and None
    where neither can be: there a constant comes in by the gate, which may also be `no`."""

    gate: str
    premise: str | None
    outer: "Context | None" = None
    # The cell of each expression that has one here, and what was stated to hold.
    cells: dict[Node, str] = field(default_factory=dict)
    stated: set[Node] = field(default_factory=set)
    # Cells that are `yes` and `no` while the gate is open and else not known, once they are needed.
    opened: str = ""
    closed: str = ""

    @property
    def is_gated(self) -> bool:
        """Whether it holds only while a gate is open."""
        return self.outer is not None
