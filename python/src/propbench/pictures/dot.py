"""A network as a text in Graphviz's language DOT.

Names are numbered, and texts are quoted, so that nothing a user calls something is taken for DOT or
for markup.
"""

from collections.abc import Iterable, Iterator, Mapping
from dataclasses import dataclass, field, replace

from propbench.pictures.folding import MOST_CELLS, MOST_INSTANCES, folded
from propbench.showing import printable
from propbench.watching import NOTHING_SEEN, Bearing, NetworkSeen, Premise, SeenNow, Use

# A text in a picture has so many letters at the most.
_LONGEST = 44
_INK, _CELL, _USE, _NOTE, _CLASH, _LIT = (
    "#1d2733",
    "#eef4fb",
    "#ffffff",
    "#fff6dc",
    "#b3261e",
    "#c2570c",
)
_GREY = "#9aa3ad"

# More cells than this are laid out by springs, fewer from left to right: a long chain is too wide.
_MOST_IN_RANKS = 24
_RANKS = "rankdir=LR, nodesep=0.18, ranksep=0.45"
_SPRINGS = 'layout=neato, overlap=prism, splines=true, sep="+6"'
_HEAD = (
    'graph [bgcolor="white", fontname="sans-serif", fontsize=11]',
    f'node [fontname="sans-serif", fontsize=11, color="{_INK}", fontcolor="{_INK}",'
    ' margin="0.08,0.04", height=0.3]',
    f'edge [color="#6b7785", arrowsize=0.6]',
)


@dataclass(frozen=True)
class Look:
    """How a picture is drawn: what is `lit` (what bears on a cell), which cells are `changed`,
    which use is `called`, whether all that isn't lit is left out, and how wide cells are at least,
    in letters."""

    lit: Bearing | None = None
    changed: frozenset[str] = frozenset()
    called: str = ""
    only_lit: bool = False
    widths: Mapping[str, int] = field(default_factory=dict)
    is_open: bool | None = None


def dot_of(network: NetworkSeen, seen: SeenNow = NOTHING_SEEN, look: Look = Look()) -> str:
    """The picture of a network as it is seen."""
    shown = restricted(network, look.lit) if look.only_lit and look.lit else network
    inner = sum(1 for use in shown.uses for _ in use.inner_cells())
    leaves = sum(1 for use in shown.uses for _ in use.leaves())
    few = len(shown.cells) + inner <= MOST_CELLS and leaves <= MOST_INSTANCES
    is_open = few if look.is_open is None else look.is_open
    if len(shown.cells) > MOST_CELLS:
        fold = folded(shown)
        drawn = _Drawn(fold.network, seen, look, False, fold.counts)
    else:
        drawn = _Drawn(shown, seen, look, is_open, {})
    return "\n".join(["digraph {", *(f"  {line}" for line in drawn.lines()), "}", ""])


def restricted(network: NetworkSeen, lit: Bearing) -> NetworkSeen:
    """What is lit of a network, with the premises and choices that speak of it."""
    uses = [use for use in network.uses if use.name in lit.uses]
    drawn = lit.cells.union(cell.name for use in uses for cell in use.inner_cells())
    return NetworkSeen(
        tuple(cell for cell in network.cells if cell.name in lit.cells),
        tuple(_among(use, drawn) for use in uses),
        tuple(premise for premise in network.premises if premise.name in lit.premises),
        tuple(choice for choice in network.choices if choice.name in lit.choices),
        tuple(said for said in network.fixed if said.cell in lit.cells),
    )


def _among(use: Use, cells: frozenset[str]) -> Use:
    """A use with those of its cells, and the parts between those, that are among these."""
    parts = tuple(
        _among(part, cells)
        for part in use.parts
        if any(cells.issuperset(leaf.cells) for leaf in part.leaves())
    )
    joined = {cell for part in parts for leaf in part.leaves() for cell in leaf.cells}
    return replace(
        use,
        cells=tuple(cell for cell in use.cells if cell in cells),
        parts=parts,
        locals=tuple(cell for cell in use.locals if cell.name in joined),
    )


class _Drawn:
    """The lines of a picture."""

    def __init__(
        self,
        network: NetworkSeen,
        seen: SeenNow,
        look: Look,
        is_open: bool,
        counts: Mapping[str, int],
    ) -> None:
        self._network, self._seen, self._look, self._is_open = network, seen, look, is_open
        self._counts = counts
        names = [cell.name for cell in network.cells]
        names += [cell.name for use in network.uses for cell in use.inner_cells()]
        self._ids = {name: f"c{place}" for place, name in enumerate(names)}
        self._clash = set(seen.clash.premises) if seen.clash else set()

    def lines(self) -> Iterator[str]:
        is_small = self._is_open or len(self._network.cells) <= _MOST_IN_RANKS
        yield f"graph [{_RANKS if is_small else _SPRINGS}]"
        yield from _HEAD
        for cell in self._network.cells:
            yield self._cell(cell.name, cell.text)
        out = {each.name for each in self._network.premises if not each.is_believed}
        for use in self._network.uses:
            yield from self._use(use, use.premise in out)
        for place, premise in enumerate(self._network.premises):
            yield from self._premise(f"p{place}", premise)
        for place, choice in enumerate(self._network.choices):
            stands = self._seen.plan.get(choice.name)
            sides = [
                f"{'* ' if at == stands else ''}{side}" for at, side in enumerate(choice.sides)
            ]
            label = _label(choice.text, *sides)
            yield f'h{place} [{label}, shape=note, style=filled, fillcolor="#e8f3e8"]'
            yield from self._dashes(f"h{place}", choice.cells, False)

    def _cell(self, name: str, text: str) -> str:
        shown = self._seen.values.get(name)
        many = self._counts.get(name, 1) > 1
        value = "" if many or shown is None else shown.text if shown.is_known else "nothing"
        parts = [_label(text, *([value] if value else [])), "shape=box", 'style="rounded,filled"']
        parts.append(f'fillcolor="{_CELL}"')
        wide = self._look.widths.get(name)
        if wide:
            parts += [f"width={0.09 * wide + 0.3:.2f}", "height=0.5", "fixedsize=true"]
        if name in self._look.changed or self._is_lit(name):
            parts += [f'color="{_LIT}"', "penwidth=2"]
        return f"{self._ids[name]} [{', '.join(parts)}]"

    def _is_lit(self, cell: str) -> bool:
        lit = self._look.lit
        return lit is not None and not self._look.only_lit and cell in lit.cells

    def _use(self, use: Use, is_out: bool, place: str = "") -> Iterator[str]:
        """A use: a box, or a cluster of its parts."""
        own = f"u{use.name.replace('.', '_')}"
        if not self._is_open or not use.parts:
            yield self._box(own, use, is_out)
            yield from self._edges(own, use, is_out)
            return
        edges: list[str] = []
        yield f"subgraph cluster_{own} {{"
        look = 'color="#b8c4d0"; style="rounded,filled"; fillcolor="#f8fafc"'
        yield f"  {_label(_told(use))}; labeljust=l; {look}"
        for cell in use.locals:
            yield f"  {self._cell(cell.name, cell.text)}"
        for part in use.parts:
            for line in self._use(part, is_out, own):
                # (an edge within a cluster would draw its cells into it)
                if " -> " in line.partition(" [")[0]:
                    edges.append(line)
                else:
                    yield f"  {line}"
        yield "}"
        yield from edges

    def _box(self, own: str, use: Use, is_out: bool) -> str:
        lit = self._look.lit
        is_lit = lit is not None and use.name in lit.uses and not self._look.only_lit
        is_lit = is_lit or use.name == self._look.called
        colour = _GREY if is_out else _LIT if is_lit else _INK
        return (
            f'{own} [{_label(_told(use))}, shape=box, style=filled, fillcolor="{_USE}",'
            f' color="{colour}", fontcolor="{_GREY if is_out else _INK}"]'
        )

    def _edges(self, own: str, use: Use, is_out: bool) -> Iterator[str]:
        """Towards what it tells of an arrow; lines where it works all ways."""
        tail = f', color="{_GREY}", style=dashed' if is_out else ""
        cells = [self._ids[cell] for cell in use.cells]
        ways = "forward" if use.one_way else "none"
        for cell in dict.fromkeys(cells[:-1] or cells):
            yield f"{cell} -> {own} [dir={ways}{tail}]"
        for cell in cells[1:][-1:]:
            yield f"{own} -> {cell} [dir={ways}{tail}]"

    def _premise(self, own: str, premise: Premise) -> Iterator[str]:
        says = [said.text for said in premise.says if said.text]
        told = says if len(says) <= 3 else [*says[:2], f"and {len(says) - 2} more"]
        out = not premise.is_believed
        colour = _GREY if out else _CLASH if premise.name in self._clash else _INK
        fill = "#f3f4f6" if out else _NOTE
        head = f"{premise.text} (out)" if out else premise.text
        yield (
            f'{own} [{_label(head, *told)}, shape=note, style=filled, fillcolor="{fill}",'
            f' color="{colour}", fontcolor="{colour}"]'
        )
        yield from self._dashes(own, (said.cell for said in premise.says if said.cell), out)
        for use in self._network.uses:
            if use.premise == premise.name:
                yield f"{own} -> u{use.name.replace('.', '_')} [{_dashed(out)}]"

    def _dashes(self, own: str, cells: Iterable[str], is_out: bool) -> Iterator[str]:
        ids = (self._ids.get(cell) for cell in cells)
        for cell in dict.fromkeys(each for each in ids if each):
            yield f"{own} -> {cell} [{_dashed(is_out)}]"


def _dashed(is_out: bool) -> str:
    return f'style=dotted, dir=none, color="{_GREY if is_out else "#8a6d1d"}"'


def _told(use: Use) -> str:
    return f"{use.text} by {use.given}" if use.given else use.text


def _label(*lines: str) -> str:
    """A label of these lines, each shortened; nothing in them is read as DOT or as an entity."""
    return 'label="' + r"\n".join(map(_quoted, lines)) + '"'


def _quoted(text: str) -> str:
    short = printable(text if len(text) <= _LONGEST else f"{text[: _LONGEST - 2]}..")
    marks = {"&": "&amp;", "<": "&lt;", ">": "&gt;", '"': "&quot;", "\\": r"\\"}
    return "".join(marks.get(each, each) for each in short)
