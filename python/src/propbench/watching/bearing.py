"""What bears on a cell: the cells and uses that lead from its reasons to it.

A program that tells what makes up a value tells this too (`resting`). For another it is worked out
here, from the directions of the procedures and from the reasons that the program names for each
value; nothing is concluded from it. A value can rest on another only where its reasons have all
reasons of the other.
"""

from collections.abc import Iterable, Iterator, Sequence
from dataclasses import dataclass

from propbench.watching.claims import Claim
from propbench.watching.network import NetworkSeen, StatedSeen, SeenNow, ValueSeen, Use

# For so many cells it is looked what is reached without them; for others that of the last serves.
_MOST_EXACT = 150


@dataclass(frozen=True)
class Bearing:
    """Names of the cells and uses that bear on a cell, itself included, and of premises and
    choices. `claim` is what makes up the value, where the program told."""

    cells: frozenset[str]
    uses: frozenset[str]
    premises: frozenset[str]
    choices: frozenset[str]
    claim: Claim | None = None

    @property
    def says(self) -> dict[str, str]:
        """What is known on the way of those cells of which it is told."""
        claims = list(self.claim.claims()) if self.claim else []
        return {each.cell: each.says for each in sorted(claims, key=lambda it: -it.place)}


@dataclass(frozen=True, eq=False)
class _Arrow:
    """A way from some cells to one, by a use."""

    inputs: tuple[str, ...]
    output: str
    use: str


def resting(claim: Claim) -> Bearing:
    """What a value is made up of, as the program told it."""
    sources = [it for each in claim.claims() for way in each.ways for it in way.sources]
    return Bearing(
        frozenset(each.cell for each in claim.claims()),
        frozenset(source.use for source in sources if source.use),
        frozenset(source.premise for source in sources if source.premise),
        frozenset(source.choice for source in sources if source.choice),
        claim,
    )


def bearing(network: NetworkSeen, seen: SeenNow, shown: ValueSeen) -> Bearing:
    """What may bear on what is shown of a cell."""
    premises = frozenset(reason.premise for reason in shown.because if reason.premise)
    choices = frozenset(reason.choice for reason in shown.because if reason.choice)
    barred = _barred(seen, shown)
    sources = set(_stated(network, premises, choices))
    arrows = [each for use in network.uses if _counts(use, premises) for each in _arrows(use)]
    behind = list(_behind(arrows, barred, sources, shown.cell))
    near = (cell for arrow, reached in behind for cell in arrow.inputs if cell in reached)
    uses = frozenset(arrow.use for arrow, _ in behind)
    return Bearing(frozenset((shown.cell, *near)), uses, premises, choices)


def _counts(use: Use, premises: frozenset[str]) -> bool:
    return not use.premise or use.premise in premises


def _barred(seen: SeenNow, shown: ValueSeen) -> set[str]:
    """The cells of which nothing is known, or whose value has reasons beyond these. What the
    program says nothing of, as the cells within a compound, is not barred."""
    reasons = set(shown.because)
    return {
        name
        for name, value in seen.values.items()
        if not value.is_known or not reasons.issuperset(value.because)
    }


def _stated(
    network: NetworkSeen, premises: frozenset[str], choices: frozenset[str]
) -> Iterator[str]:
    """The cells of which something is stated always, under these premises, or by these choices."""
    said: list[StatedSeen] = list(network.fixed)
    for premise in network.premises:
        if premise.name in premises:
            said += premise.says
    yield from (each.cell for each in said if each.cell)
    for choice in network.choices:
        if choice.name in choices:
            yield from choice.cells


def _arrows(use: Use) -> Iterator[_Arrow]:
    """The ways that a use goes. A constraint, or a compound that is not known, goes all ways."""
    for leaf in use.leaves():
        outputs = leaf.cells[-1:] if leaf.one_way else tuple(dict.fromkeys(leaf.cells))
        for output in outputs:
            inputs = tuple(each for each in dict.fromkeys(leaf.cells) if each != output)
            yield _Arrow(inputs, output, use.name)


class _Reach:
    """The cells that are reached from what is stated, without one of them: an arrow goes where all
    its inputs are reached. Only where nothing else goes on, one of them is enough."""

    def __init__(self, arrows: Sequence[_Arrow], barred: set[str]) -> None:
        """Over cells that aren't barred."""
        self._arrows, self._barred = arrows, barred
        self._alone = {arrow.output for arrow in arrows if not arrow.inputs}
        self._readers: dict[str, list[_Arrow]] = {}
        for arrow in arrows:
            for cell in arrow.inputs:
                self._readers.setdefault(cell, []).append(arrow)

    def without(self, target: str, sources: set[str]) -> set[str]:
        """The cells that are reached from these, and not over the target."""
        reached: set[str] = set()
        waits = {arrow: len(arrow.inputs) for arrow in self._arrows}

        def fresh(cells: Iterable[str]) -> list[str]:
            found = dict.fromkeys(cells)
            return [cell for cell in found if cell != target and cell not in reached]

        def outputs(arrows: Iterable[_Arrow]) -> list[str]:
            told = (arrow.output for arrow in arrows)
            return [cell for cell in fresh(told) if cell not in self._barred]

        edge = fresh(sources | self._alone)
        while edge:
            reached.update(edge)
            ready = [arrow for cell in edge for arrow in self._readers.get(cell, ())]
            for arrow in ready:
                waits[arrow] -= 1
            edge = outputs(arrow for arrow in ready if not waits[arrow])
            edge = edge or outputs(
                arrow for arrow, left in waits.items() if left < len(arrow.inputs)
            )
        return reached


def _behind(
    arrows: Sequence[_Arrow], barred: set[str], sources: set[str], target: str
) -> Iterator[tuple[_Arrow, set[str]]]:
    """The arrows that lead to the target, each with the cells that are reached without its output:
    those of which all inputs are reached, where there are such, and others where there are not."""
    reach = _Reach(arrows, barred)
    writers: dict[str, list[_Arrow]] = {}
    for arrow in arrows:
        writers.setdefault(arrow.output, []).append(arrow)
    waiting, taken = [target], {target}
    reached: set[str] = set()
    while waiting:
        cell = waiting.pop()
        if len(taken) <= _MOST_EXACT or not reached:
            reached = reach.without(cell, sources)
        near = [
            arrow for arrow in writers.get(cell, ()) if not reached.isdisjoint(arrow.inputs)
        ] + [arrow for arrow in writers.get(cell, ()) if not arrow.inputs]
        whole = [arrow for arrow in near if reached.issuperset(arrow.inputs)]
        for arrow in whole or near:
            yield arrow, reached
            fresh = [each for each in arrow.inputs if each in reached and each not in taken]
            taken.update(fresh)
            waiting += fresh
