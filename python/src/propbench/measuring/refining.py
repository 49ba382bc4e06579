"""Where pieces of curves are halved: at the ends of what is left for an argument, and between them
where it will be supposed in parts; as long as that narrows answers.

What is told of a piece holds whatever is believed, so pieces stay.
"""

from collections.abc import Collection, Iterable, Iterator, Mapping, Sequence
from dataclasses import dataclass, field

from propbench.measuring.bends import Bend, Piece, PiecePlace
from propbench.measuring.curves import Segments
from propbench.measuring.stating import BendTold, told_pieces
from propbench.model.events import Event
from propbench.model.nodes import Declared
from propbench.questions.rooms import NumberRoom

# Into how many parts what is left for an argument is cut where it will be supposed in parts.
SHAVED = 64
# So many pieces are told of a curve at the most, and a piece is halved so often at a time.
_MOST_PIECES, _FINER = 600, 3
# Lines are near enough, in steps, and as a share of what is left for the value.
_NEAR, _SHARE = 4, 1000
# At first a curve is told by two to this power of pieces, in the end by none finer than that.
_BEGUN, _FINEST = 3, 56
# What narrows no answer by more than this part of its width isn't gone on with.
_GAIN = 0.002

# The pieces of a curve that are told; None for those of which there is nothing to tell.
ToldPieces = dict[PiecePlace, Piece | None]


@dataclass(frozen=True)
class Sharp:
    """That no finer pieces are needed of curves among some cells, for so many parts, as long as
    what is stated and believed is this."""

    record: object
    cells: frozenset[Declared]
    parts: int

    def covers(self, record: object, cells: Collection[Declared], parts: int) -> bool:
        """Whether it says so of these cells too."""
        return record is self.record and self.cells.issuperset(cells) and parts <= self.parts


@dataclass
class Sharpening:
    """The curves among some quantities, and the pieces of each that are told, under which premises:
    pieces are to be finer at the ends of what is left for the argument, and all that lie between in
    so many `parts` of it, where these are more than 0."""

    parts: int
    pieces: dict[tuple[Bend, str | None], ToldPieces] = field(default_factory=dict)
    _widths: dict[Bend, tuple[int, int]] = field(default_factory=dict)

    @staticmethod
    def of(
        events: Sequence[Event], cells: Collection[Declared], believed: Collection[str], parts: int
    ) -> "Sharpening":
        """That of curves which hold among these cells, with what is believed."""
        found = Sharpening(parts)
        for each in events:
            if not isinstance(each, BendTold):
                continue
            piece, bend = each.piece, each.piece.bend
            is_in = each.premise is None or each.premise in believed
            if is_in and bend.argument in cells and bend.value in cells:
                found.pieces.setdefault((bend, each.premise), {})[piece.place] = piece
        return found

    @property
    def cells(self) -> list[Declared]:
        """The cells between which the curves lie."""
        ends = ((bend.argument, bend.value) for bend, _ in self.pieces)
        return list(dict.fromkeys(cell for pair in ends for cell in pair))

    def finer(self, left: Mapping[Declared, NumberRoom]) -> list[BendTold]:
        """Pieces that are to be told next, by what is left for the cells."""
        found: list[BendTold] = []
        for (bend, under), told in self.pieces.items():
            argument, value = left[bend.argument], left[bend.value]
            widths = len(argument), len(value)
            before = self._widths.get(bend)
            self._widths[bend] = widths
            if before and all(now > was * (1 - _GAIN) for now, was in zip(widths, before)):
                continue
            near = max(_NEAR, len(value) // _SHARE)
            at_ends = _at_ends(bend, _ends(bend, argument, value), told, near)
            fresh = dict.fromkeys((*at_ends, *_parts(bend, argument, told, self.parts)))
            for place in list(fresh)[: max(0, _MOST_PIECES - len(told))]:
                told[place] = bend.piece(place)
                found += told_pieces([told[place]], under)
        return found


def _ends(bend: Bend, argument: NumberRoom, value: NumberRoom) -> list[int]:
    """The ends of what is left for an argument, and what it is about at the ends for the value."""
    low, high = bend.whole
    begun, ended = min(max(argument.low, low), high), max(min(argument.high, high), low)
    by_value = (min(max(bend.guess(each), begun), ended) for each in (value.low, value.high))
    return list(dict.fromkeys((begun, ended, *by_value)))


def _at_ends(bend: Bend, ends: Iterable[int], told: ToldPieces, near: int) -> Iterator[PiecePlace]:
    """Finer pieces at some numbers of the argument's cell, where lines aren't near yet: each with
    the one beside it that is nearer, since a piece tells nothing of what lies just within its
    end."""
    if isinstance(bend.curve, Segments):
        return
    low, high = bend.whole
    for at in ends:
        around = [each for each in told if each[0] <= at <= each[1]]
        finest = min(around, key=_size, default=(at, at))
        piece, power = told.get(finest), _power(high - low, _size(finest))
        if piece is None or _size(finest) < 2:
            continue
        if piece.lines.width > near:
            power = min(power + _FINER, _FINEST)
        place = min((at - low << power) // (high - low), (1 << power) - 1)
        is_above = 2 * ((at - low << power) - place * (high - low)) > high - low
        for each in (place, place + (1 if is_above else -1)):
            found = _place(bend, each, power)
            if 0 <= each < 1 << power and found not in told:
                yield found


def _parts(bend: Bend, left: NumberRoom, told: ToldPieces, parts: int) -> Iterator[PiecePlace]:
    """Pieces that are as fine as so many parts of what is left for the argument, where lines aren't
    near yet."""
    low, high = bend.whole
    if not parts or isinstance(bend.curve, Segments) or high - low < 2 * parts:
        return
    begun = max(_power(high - low, _size(place)) for place in told)
    wanted = _power(high - low, len(left) // parts)
    power = min(begun + 2 * _FINER, _FINEST, max(_BEGUN, wanted))
    first, last = (
        (min(max(end, low), high) - low << power) // (high - low) for end in (left.low, left.high)
    )
    for at in range(first, min(last, (1 << power) - 1) + 1):
        place = _place(bend, at, power)
        if place not in told and not _is_near(place, told):
            yield place


def _place(bend: Bend, at: int, power: int) -> PiecePlace:
    """One of two to this power of pieces of a bend."""
    low, high = bend.whole
    return low + ((high - low) * at >> power), low + ((high - low) * (at + 1) >> power)


def _is_near(place: PiecePlace, told: ToldPieces) -> bool:
    """Whether the lines of a piece that is told and that another lies in are near already."""
    around = [each for each in told if each[0] <= place[0] and place[1] <= each[1]]
    piece = told[min(around, key=_size)] if around else None
    return bool(around) and (piece is None or piece.lines.width <= _NEAR)


def _size(place: PiecePlace) -> int:
    return max(1, place[1] - place[0])


def _power(length: int, size: int) -> int:
    """How often a length has to be halved to be of a size, or less."""
    return max(0, (length - 1) // max(1, size)).bit_length()
