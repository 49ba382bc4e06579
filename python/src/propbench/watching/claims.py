"""What makes up a value, as a tree: what is known of a cell, the ways that lead to it, and what is
known of other cells on these ways.

It is made of the parts that the program tells by `how`. Parts at cells that a user has no name for
are folded into the ways that lead through them. A tree that is long is told by the chain that
makes the value, and by how many others of which kind it rests on.
"""

from bisect import bisect_right
from collections import Counter
from functools import reduce
from itertools import accumulate, islice
from collections.abc import Callable, Iterable, Iterator, Sequence
from dataclasses import dataclass, replace
from html import escape

from propbench.questions.shown import counted, shortened
from propbench.replies import Called, How, Stated
from propbench.showing import printable
from propbench.values import Held, Nothing, Span, both

# A tree is so deep at the most, and says of what lies deeper that it is there.
_DEEPEST = 12
_DEEPER = "(and more behind)"
# A tree of more lines is told by its chain. Of a chain with more steps so many are told of either
# end; and of what a step comes from so many.
_MOST_LINES, _FIRST, _LAST, _NAMED = 12, 6, 4, 2
# The kind of what is found by trying all that is left.
SEARCH = "search"
_CUT = "What makes it up was not found within the limit."


@dataclass(frozen=True)
class Source:
    """What a part comes from: a premise (`told by` is its `lead`), a call or a constraint (`by`), a
    side of a choice (`on`). The names are those of the network: of the use that was called, and of
    the premise or the choice that counts, "" for none. What is `weak` counts where a way has
    nothing else: it only makes what a user has no name for. By its `kind` it is counted."""

    lead: str
    text: str
    use: str = ""
    premise: str = ""
    choice: str = ""
    weak: bool = False
    kind: str = "statement"


@dataclass(frozen=True, eq=False)
class KnownBy:
    """A way to know something of a cell: what it says, what it comes from, and what it counts of
    other cells; and the value that it says."""

    says: str
    sources: tuple[Source, ...]
    inputs: tuple["Claim", ...]
    value: Held = Nothing()

    @property
    def text(self) -> str:
        """What it comes from, in words."""
        return _in_words(self.sources)


@dataclass(frozen=True, eq=False)
class Claim:
    """What is known of a cell, as text, by all these ways together, the one that completes it in
    front; `cut` where they weren't found within the limit. A claim on which several others rest is
    one object. Of two about a cell the one of the lower `place` says more. Of a number it may be
    one `end` that is asked for, 0 for the low one."""

    cell: str
    says: str
    ways: tuple[KnownBy, ...]
    place: int = -1
    cut: bool = False
    value: Held = Nothing()
    end: int | None = None

    def claims(self) -> Iterator["Claim"]:
        """This claim and all that it rests on, each once."""
        waiting, seen = [self], {self}
        while waiting:
            claim = waiting.pop()
            yield claim
            inputs = [each for way in claim.ways for each in way.inputs if each not in seen]
            seen.update(inputs)
            waiting += dict.fromkeys(inputs)

    def of(self, cell: str) -> "Claim":
        """What is known on the way of another cell; where that is told more than once, what says
        most. Raises KeyError where it doesn't rest on the cell."""
        found = [each for each in self.claims() if each.cell == cell]
        if not found:
            raise KeyError(cell)
        return min(found, key=lambda each: each.place)

    @property
    def premises(self) -> tuple[str, ...]:
        """The premises that it rests on."""
        return tuple(dict.fromkeys(it.premise for it in _sources(self) if it.premise))

    @property
    def chain(self) -> tuple["Claim", ...]:
        """The chain that makes it, or one end of a number, from this claim on: each rests on the
        next, and on whatever else stands below it."""
        return tuple(claim for claim, _ in _Walk(self).steps())

    @property
    def is_folded(self) -> bool:
        """Whether it is printed by its chain: as a tree it would be long."""
        return len(list(islice(_lines(self), _MOST_LINES + 1))) > _MOST_LINES

    def whole(self) -> str:
        """All of it, as a tree."""
        lines = [f"{'  ' * depth}{printable(text)}" for depth, text in _lines(self)]
        return "\n".join([*lines, *([_CUT] if self.cut else [])])

    def __str__(self) -> str:
        if not self.is_folded:
            return self.whole()
        lines = [f"{'  ' * depth}{printable(text)}" for depth, text in _folded(self)]
        return "\n".join([*lines, *([_CUT] if self.cut else [])])

    def __repr__(self) -> str:
        return str(self)

    def _repr_html_(self) -> str:
        lines = _lines(self)
        if not self.is_folded:
            return f"{_as_list(lines)}{_CUT if self.cut else ''}"
        head = "<details><summary>All of it</summary>"
        return f"{_as_list(_folded(self))}{head}{_as_list(lines)}</details>"


@dataclass(frozen=True)
class Wording:
    """How parts are told: the text of a value of a cell; what a part comes from, None where there
    is nothing to say; and whether a cell has no name for the user."""

    says: Callable[[str, Held, tuple[str, ...]], str]
    source: Callable[[Called | Stated], Source | None]
    is_inner: Callable[[str], bool]
    name: Callable[[str], str]


def claim_of(how: How, wording: Wording) -> Claim:
    """What makes up a value, by what the program tells of it."""
    made = _Made(how.parts or (), wording)
    ways = made.ways_behind(how.cell, -1)
    says = wording.says(how.cell, how.value, how.because)
    return Claim(wording.name(how.cell), says, ways, cut=how.parts is None, value=how.value)


class _AtCell:
    """The parts at a cell by their places, and what those from each on say together."""

    def __init__(self, places: list[int], values: Sequence[Held]) -> None:
        self._places, self._values = places, values
        self._together = [*accumulate(reversed(values), both)][::-1]

    def needed(self, place: int) -> list[int]:
        """Of those behind a place some that say together what all do. The first of them says more
        than all behind it; then come those that stand behind, as what is stated does."""
        first = bisect_right(self._places, place)
        if first == len(self._places):
            return []
        kept, known = [first], self._values[first]
        while both(known, self._together[first]) != known:
            # (from each part on less is said than from the one before it)
            low, high = first, len(self._places) - 1
            while low < high:
                middle = (low + high + 1) // 2
                is_news = both(known, self._together[middle]) != known
                low, high = (middle, high) if is_news else (low, middle - 1)
            kept.append(low)
            known = both(known, self._values[low])
        return [self._places[each] for each in sorted(kept)]


class _Made:
    """The ways of parts, made from the last part on: each counts those behind it."""

    def __init__(self, parts: Sequence[Called | Stated], wording: Wording) -> None:
        self._parts, self._wording = parts, wording
        places: dict[str, list[int]] = {}
        for place, part in enumerate(parts):
            places.setdefault(part.cell, []).append(place)
        self._at = {
            cell: _AtCell(found, [parts[place].value for place in found])
            for cell, found in places.items()
        }
        self._claims: dict[tuple[str, int], Claim] = {}
        self._ways: dict[int, KnownBy] = {}
        for place in reversed(range(len(parts))):
            if not wording.is_inner(parts[place].cell):
                self._ways[place] = self._way(place)

    def ways_behind(self, cell: str, place: int) -> tuple[KnownBy, ...]:
        """The ways by the parts at a cell behind this place, as far as they are needed."""
        return tuple(self._ways[each] for each in self._behind(cell, place))

    def _behind(self, cell: str, place: int) -> list[int]:
        return self._at[cell].needed(place) if cell in self._at else []

    def _way(self, place: int) -> KnownBy:
        """The way of a part: through all parts at inner cells that it counts."""
        part = self._parts[place]
        sources: list[Source] = []
        inputs: dict[Claim, None] = {}
        waiting, seen = [place], {place}
        while waiting:
            each = waiting.pop()
            source = self._wording.source(self._parts[each])
            sources += [source] if source else []
            for cell, behind in self._inputs(each):
                if self._wording.is_inner(cell):
                    fresh = [it for it in behind if it not in seen]
                    seen.update(fresh)
                    waiting += reversed(fresh)
                else:
                    inputs[self._claim(cell, behind)] = None
        says = self._wording.says(part.cell, part.value, part.because)
        strong = [source for source in sources if not source.weak] or sources
        return KnownBy(says, tuple(dict.fromkeys(strong)), tuple(inputs), part.value)

    def _inputs(self, place: int) -> Iterator[tuple[str, list[int]]]:
        """The inputs of a call of which something is known, each with the parts that say it."""
        part = self._parts[place]
        for cell in dict.fromkeys(part.inputs if isinstance(part, Called) else ()):
            behind = self._behind(cell, place)
            if behind:
                yield cell, behind

    def _claim(self, cell: str, places: list[int]) -> Claim:
        """What the parts at these places, all of a cell and needed, say together."""
        key = (cell, places[0])
        if key not in self._claims:
            parts = [self._parts[place] for place in places]
            value = reduce(both, [part.value for part in parts])
            because = dict.fromkeys(premise for part in parts for premise in part.because)
            says = self._wording.says(cell, value, tuple(because))
            ways = tuple(self._ways[place] for place in places)
            name = self._wording.name(cell)
            self._claims[key] = Claim(name, says, ways, places[0], value=value)
        return self._claims[key]


def _lines(root: Claim) -> Iterator[tuple[int, str]]:
    """The lines of a tree, each with its depth. What was told once is referred to."""
    waiting: list[tuple[int, Claim | KnownBy, str]] = [(0, root, root.cell)]
    seen: set[Claim | KnownBy] = set()
    while waiting:
        depth, each, name = waiting.pop()
        ways = each.ways if isinstance(each, Claim) else (each,)
        text = f"{name} = {each.says}"
        below: list[tuple[int, Claim | KnownBy, str]]
        if len(ways) > 1:
            below = [(depth + 1, way, name) for way in ways]
        else:
            text = ", ".join((text, *(way.text for way in ways if way.text)))
            below = [(depth + 1, claim, claim.cell) for way in ways for claim in way.inputs]
            each = ways[0] if ways else each
        if below and each in seen:
            yield depth, f"{text}, as above"
        elif below and depth >= _DEEPEST:
            yield depth, f"{text} {_DEEPER}"
        else:
            yield depth, text
            waiting += reversed(below)
        seen.add(each)


def _in_words(sources: Iterable[Source]) -> str:
    """What something comes from, in words."""
    leads: dict[str, list[str]] = {}
    for source in sources:
        leads.setdefault(source.lead, []).append(source.text)
    return ", ".join(
        f"{lead} {' and '.join(dict.fromkeys(texts))}" for lead, texts in leads.items()
    )


def _as_list(lines: Iterable[tuple[int, str]]) -> str:
    """Lines of these depths for a browser."""
    parts: list[str] = []
    before = -1
    for depth, text in lines:
        parts.append("<ul>" * (depth - before) + "</ul>" * (before - depth))
        parts.append(f"<li>{escape(printable(text))}</li>")
        before = depth
    return f"{''.join(parts)}{'</ul>' * (before + 1)}"


# --- the chain of a tree ---


def _sources(root: Claim) -> dict[Source, None]:
    """What all that a claim rests on comes from. (What is declared is no reason by itself.)"""
    found = (it for each in root.claims() for way in each.ways for it in way.sources)
    return dict.fromkeys(source for source in found if source.kind)


def _depths(root: Claim) -> dict[Claim, int]:
    """How many steps the longest chain below each claim has."""
    found: dict[Claim, int] = {}
    waiting = [root]
    while waiting:
        claim = waiting[-1]
        below = [each for way in claim.ways for each in way.inputs]
        fresh = [each for each in below if each not in found]
        waiting += fresh
        if not fresh:
            found[waiting.pop()] = 1 + max((found[each] for each in below), default=0)
    return found


@dataclass(frozen=True)
class _Step:
    """How one end of a number comes about, or a value: by a way, and how long the chain behind it
    is. The other end is told of where this one is only declared."""

    way: KnownBy | None
    end: int
    depth: int


class _Walk:
    """The way down the chain that makes one end of a number, or a value: from each claim to that
    on which the most rests of what makes it."""

    def __init__(self, root: Claim) -> None:
        self._root = root
        self._found: dict[tuple[Claim, int], _Step] = {}
        depths = _depths(root)
        for claim in sorted(depths, key=depths.__getitem__):
            made = [self._making(claim, end) for end in (0, 1)]
            for end in (0, 1):
                is_other = _is_declared(made[end]) and not _is_declared(made[1 - end])
                self._found[claim, end] = made[1 - end if is_other else end]

    def _making(self, claim: Claim, end: int) -> _Step:
        """How a claim comes to this end: of several ways that on which the least rests."""
        ends, ways = _ends(claim.value), claim.ways[:1]
        if ends is not None:
            made = [(way, _ends(way.value)) for way in claim.ways]
            ways = tuple(way for way, its in made if its and its[end] == ends[end]) or ways
        steps = [_Step(way, end, self._depth(way, end)) for way in ways]
        return min(steps, key=lambda step: step.depth, default=_Step(None, end, 0))

    def _depth(self, way: KnownBy, end: int) -> int:
        return 1 + max((self._found[each, end].depth for each in way.inputs), default=0)

    def steps(self) -> Iterator[tuple[Claim, tuple[Source, ...]]]:
        """The claims of the chain, each with what leads on to it. It ends where all that is left
        are many statements of single cells."""
        claim: Claim | None = self._root
        end, seen = self._first_end(), set[str]()
        while claim:
            seen.add(claim.cell)
            step = self._found[claim, end]
            yield claim, step.way.sources if step.way else ()
            end = step.end
            claim = self._next(step, seen) if step.way else None

    def _first_end(self) -> int:
        """The end that is asked for, or that what completes the value makes."""
        root = self._root
        ends, made = _ends(root.value), _ends(root.ways[0].value) if root.ways else None
        if root.end is not None:
            return root.end
        return 1 if ends and made and made[0] != ends[0] else 0

    def _next(self, step: _Step, seen: set[str]) -> Claim | None:
        """The claim of which the chain tells next."""
        assert step.way
        is_search = any(it.kind == SEARCH for it in step.way.sources)
        # (what a search began with is known of the same cell)
        new = [it for it in step.way.inputs if is_search or it.cell not in seen]
        depths = {it: self._found[it, step.end].depth for it in new if _says_more(it)}
        longest = max(depths, key=lambda it: (depths[it], len(it.ways)), default=None)
        is_one_of_many = longest and depths[longest] == 1 and len(depths) > _NAMED
        return None if is_one_of_many else longest


def _is_declared(step: _Step) -> bool:
    """Whether nothing leads to it beside what is declared."""
    way = step.way
    return way is None or not (way.inputs or any(it.kind for it in way.sources))


def _says_more(claim: Claim) -> bool:
    """Whether something leads to a claim beside what is declared."""
    return any(way.inputs or any(it.kind for it in way.sources) for way in claim.ways)


def _ends(value: Held) -> tuple[int, int] | None:
    return (value.low, value.high) if isinstance(value, Span) else None


def _folded(root: Claim) -> Iterator[tuple[int, str]]:
    """The lines of a chain, and of how many others of which kind there are."""
    steps = list(_Walk(root).steps())
    left = {_key(source): source for source in _sources(root)}
    is_long = len(steps) > _FIRST + _LAST + 1
    for place, (claim, sources) in enumerate(steps):
        if is_long and place == _FIRST:
            yield 1, f"({len(steps) - _FIRST - _LAST} steps between)"
        named = _named(sources)
        for source in named:
            left.pop(_key(source), None)
        if is_long and _FIRST <= place < len(steps) - _LAST:
            continue
        text, words = f"{claim.cell} = {claim.says}", _in_words(map(_briefly, named))
        yield min(place, 1), f"{text}, {words}" if words else text
    if told := counted(Counter(source.kind for source in left.values())):
        yield 0, f"and {told}"


def _named(sources: Sequence[Source]) -> list[Source]:
    """What is named of that from which a step comes: a search alone, for it has a part in all."""
    searches = [it for it in sources if it.kind == SEARCH]
    counts = {_key(it): it for it in searches or sources if it.kind}
    return list(counts.values())[:_NAMED] or list(sources[:1])


def _key(source: Source) -> tuple[str, str]:
    """What is counted once: a premise, or what holds always."""
    return (source.premise, "") if source.premise else ("", f"{source.lead} {source.text}")


def _briefly(source: Source) -> Source:
    """The same in few letters, the premise in whole."""
    under = f" ({source.premise})"
    end = under if source.premise and source.text.endswith(under) else ""
    return replace(source, text=f"{shortened(source.text.removesuffix(end))}{end}")
