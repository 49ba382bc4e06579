"""A film: the steps of a run as a strip of small pictures, or as a table where there are many
cells."""

from collections.abc import Sequence
from html import escape

from propbench.pictures.dot import Look, dot_of
from propbench.pictures.graphviz import NoGraphviz, svgs_of
from propbench.showing import printable
from propbench.tables import table
from propbench.watching import Frame, NetworkSeen, SeenNow, ValueSeen

# So many cells are drawn in each picture of a strip at the most; of more there is a table.
_MOST_DRAWN = 16


class Film:
    """The first steps of a run that change something. `frames` has what each changed, with the
    number of the step; frame 0 is what is known before the first."""

    def __init__(self, network: NetworkSeen, frames: Sequence[Frame]) -> None:
        self.network, self.frames = network, list(frames)
        self._texts = {cell.name: cell.text for cell in network.cells}
        self._tells = any(frame.does for frame in frames)

    def rows(self) -> list[tuple[str, ...]]:
        """For each step what was called or moved, where the program told; which cells changed, and
        what else came of it."""
        return [(str(each.number), *self._says(each)) for each in self.frames]

    @property
    def _heads(self) -> tuple[str, ...]:
        return ("step", "called", "changed", "") if self._tells else ("step", "changed", "")

    def __str__(self) -> str:
        return table(self._heads, self.rows())

    def __repr__(self) -> str:
        return str(self)

    @property
    def svgs(self) -> list[str]:
        """The pictures, one for each step, all of one layout. Raises NoGraphviz."""
        return svgs_of(self._dots())

    def _repr_html_(self) -> str:
        if len(self.network.cells) <= _MOST_DRAWN:
            try:
                return self._strip()
            except NoGraphviz:
                pass
        return self._table()

    def _strip(self) -> str:
        parts = []
        for frame, svg in zip(self.frames, self.svgs):
            told = escape(": ".join(filter(None, (f"step {frame.number}", *self._says(frame)))))
            parts.append(
                f'<figure style="margin:4px;border:1px solid #ccc;padding:4px">{svg}'
                f'<figcaption style="max-width:24em">{told}</figcaption></figure>'
            )
        return f'<div style="display:flex;overflow-x:auto">{"".join(parts)}</div>'

    def _table(self) -> str:
        head = f"<tr>{''.join(f'<th>{name}</th>' for name in self._heads)}</tr>"
        rows = "".join(
            f"<tr>{''.join(f'<td>{escape(text)}</td>' for text in row)}</tr>" for row in self.rows()
        )
        return f"<table>{head}{rows}</table>"

    def _says(self, frame: Frame) -> tuple[str, ...]:
        changed = ", ".join(
            printable(f"{self._texts.get(each.cell, each.cell)} = {each.after}")
            for each in frame.changes
        )
        nogoods = [f"impossible together: {', '.join(each)}" for each in frame.nogoods]
        told = (changed, printable("; ".join([*nogoods, *([frame.end] if frame.end else [])])))
        return (printable(frame.does), *told) if self._tells else told

    def _dots(self) -> list[str]:
        """The pictures in DOT, with cells as wide as what they hold in any step."""
        values: dict[str, ValueSeen] = {}
        widths = {name: len(text) for name, text in self._texts.items()}
        for frame in self.frames:
            for each in frame.changes:
                widths[each.cell] = max(widths.get(each.cell, 0), len(each.after))
        texts = []
        for frame in self.frames:
            for each in frame.changes:
                values[each.cell] = ValueSeen(each.cell, each.after, each.because)
            changed = frozenset(each.cell for each in frame.changes)
            look = Look(changed=changed, called=frame.use, widths=widths, is_open=False)
            texts.append(dot_of(self.network, SeenNow(dict(values)), look))
        return texts
