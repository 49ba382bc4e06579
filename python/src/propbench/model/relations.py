"""Relations on lines, also those of which one line can't hold all pairs.

Such a one is taken apart by the elements of its first domain. Each part knows of a few of these
with which elements of the second they stand, and of the others that it knows nothing of them. That
tells as much as the whole where the second is looked for from one element, and where the first is
looked for from any; so it is done by the elements of the second domain too.
"""

from collections.abc import Iterator, Sequence
from dataclasses import dataclass

from propbench.model.context import Context
from propbench.model.kinds import Domain
from propbench.model.writer import Writer
from propbench.words import MOST_BYTES

Pairs = Sequence[tuple[str, str]]
# How many elements a domain has at the most, and room for a command and for names on a line.
_MOST_ELEMENTS, _ROOM = 64, 200


@dataclass(frozen=True)
class _Part:
    """Some elements of the first domain, and all that stand with one of them."""

    rows: tuple[str, ...]
    columns: tuple[str, ...]


class Relations:
    """Writes that two cells of a context are a pair of a relation."""

    def __init__(self, writer: Writer, context: Context) -> None:
        self._writer, self._context = writer, context

    def link(self, domains: tuple[Domain, Domain], pairs: Pairs, cells: tuple[str, str]) -> None:
        """States that the cells, of these domains, are one of the pairs."""
        first, second = domains
        if self._length(domains, pairs) <= MOST_BYTES - _ROOM:
            relation = self._writer.relation(first, second, pairs)
            self._attach(*cells, by=relation)
            return
        self._link_by_parts(domains, pairs, cells)
        turned = [(right, left) for left, right in pairs]
        self._link_by_parts((second, first), turned, (cells[1], cells[0]))

    def _length(self, domains: tuple[Domain, Domain], pairs: Pairs) -> int:
        return sum(
            self._size(left, domains[0]) + self._size(right, domains[1]) for left, right in pairs
        )

    def _size(self, element: str, domain: Domain) -> int:
        """How many bytes an element takes in a pair, with what stands behind it."""
        return len(self._writer.vocabulary.literal(element, domain).encode()) + 2

    def _link_by_parts(
        self, domains: tuple[Domain, Domain], pairs: Pairs, cells: tuple[str, str]
    ) -> None:
        for part in self._parts(domains, pairs):
            self._link_part(part, domains, pairs, cells)

    def _parts(self, domains: tuple[Domain, Domain], pairs: Pairs) -> Iterator[_Part]:
        """Parts of which each has room on a line. An element that stands with all of the second
        domain is in none."""
        first, second = domains
        row_of: dict[str, list[str]] = {element: [] for element in first.elements}
        for left, right in pairs:
            row_of[left].append(right)
        # (the elements between are called `a1` to `a64`: five bytes of each pair, and its mark)
        sizes = {element: self._size(element, first) + 5 for element in first.elements}
        part = _Part((), ())
        for element, row in row_of.items():
            if len(row) == len(second.elements):
                continue
            grown = _Part((*part.rows, element), tuple(dict.fromkeys((*part.columns, *row))))
            if part.rows and not _has_room(grown, sizes, row_of):
                yield part
                grown = _Part((element,), tuple(row))
            part = grown
        if part.rows:
            yield part

    def _link_part(
        self, part: _Part, domains: tuple[Domain, Domain], pairs: Pairs, cells: tuple[str, str]
    ) -> None:
        """Links both cells to one between them, which is `a1` where the part knows nothing."""
        first, second = domains
        between = self._writer.alternatives(len(part.columns) + 1)
        unknown, *known = between.elements
        name_of = dict(zip(part.columns, known))
        near = [(left, name_of[right]) for left, right in pairs if left in part.rows]
        near += [(element, unknown) for element in first.elements if element not in part.rows]
        far = [(unknown, element) for element in second.elements]
        far += [(name, element) for element, name in name_of.items()]
        middle = self._writer.new_cell(between)
        to, onward = (
            self._writer.relation(first, between, near),
            self._writer.relation(between, second, far),
        )
        self._attach(cells[0], middle, by=to)
        self._attach(middle, cells[1], by=onward)

    def _attach(self, *cells: str, by: str) -> None:
        self._writer.attach_within(self._context, "link", *cells, by=by)


def _has_room(part: _Part, sizes: dict[str, int], row_of: dict[str, list[str]]) -> bool:
    """Whether a part has room on a line, where each pair of an element takes so many bytes."""
    count = {element: len(row_of[element]) for element in part.rows}
    length = sum(size * max(count.get(element, 1), 1) for element, size in sizes.items())
    return len(part.columns) < _MOST_ELEMENTS and length <= MOST_BYTES - _ROOM
