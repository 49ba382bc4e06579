"""Folding: a picture of many cells in which those that play the same part are one.

Two cells play the same part where they are of one kind, stated in the same way, and stand in the
same places of the same procedures. Where that leaves too many, it is enough that they come out of
the same procedures, and then that they are of one kind. Premises fold too, where they state the
same folds. A fold has no value: it stands for several cells.
"""

from collections.abc import Callable, Mapping, Sequence
from dataclasses import dataclass

from propbench.watching import CellSeen, ChoiceSeen, NetworkSeen, Premise, StatedSeen, Use

# A picture has so many cells at the most before it is folded, and so many instances drawn apart.
MOST_CELLS, MOST_INSTANCES = 60, 30
# A folded picture has so many cells at the most, where that can be.
_MOST_FOLDS = 24
# So many are named one by one.
_NAMED = 2


@dataclass(frozen=True)
class Folded:
    """A network of folds, and how many cells each stands for, by its name."""

    network: NetworkSeen
    counts: Mapping[str, int]


# What part a cell plays: the same for the same part.
Grouping = Callable[[CellSeen], object]


def folded(network: NetworkSeen) -> Folded:
    """The network with cells of the same part as one, and equal uses of those as one."""
    groups = _groups(network)
    of = {cell.name: group[0].name for group in groups for cell in group}
    return Folded(
        NetworkSeen(
            tuple(CellSeen(group[0].name, _named(group), group[0].kind) for group in groups),
            tuple(_uses(network.uses, of)),
            tuple(_premises(network.premises, of)),
            tuple(_choices(network.choices, of)),
            tuple(StatedSeen(said.text, of.get(said.cell, "")) for said in network.fixed),
        ),
        {group[0].name: len(group) for group in groups},
    )


def _groups(network: NetworkSeen) -> list[list[CellSeen]]:
    """The cells by their part, told as far apart as there is room for."""
    places: dict[str, set[object]] = {cell.name: set() for cell in network.cells}
    sources: dict[str, set[object]] = {cell.name: set() for cell in network.cells}
    for use in network.uses:
        text = _sort(use)
        for place, cell in enumerate(use.cells):
            places[cell].add((text, use.given, place if use.one_way or use.parts else 0))
        sources[use.cells[-1]].add(text)
    stated = _stated(network)
    parts: list[Grouping] = [
        lambda cell: (cell.kind, stated[cell.name], frozenset(places[cell.name])),
        lambda cell: (cell.kind, stated[cell.name], frozenset(sources[cell.name])),
        lambda cell: cell.kind,
    ]
    found: dict[object, list[CellSeen]]
    for part in parts:
        found = {}
        for each in network.cells:
            found.setdefault(part(each), []).append(each)
        if len(found) <= _MOST_FOLDS:
            break
    return list(found.values())


def _stated(network: NetworkSeen) -> dict[str, frozenset[str]]:
    """In which ways something is stated of each cell."""
    ways: dict[str, set[str]] = {cell.name: set() for cell in network.cells}
    for said in network.fixed:
        if said.cell:
            ways[said.cell].add("fixed")
    for premise in network.premises:
        for said in premise.says:
            if said.cell:
                ways[said.cell].add("told" if premise.is_believed else "out")
    for choice in network.choices:
        for cell in choice.cells:
            ways[cell].add("chosen")
    return {name: frozenset(found) for name, found in ways.items()}


def _sort(use: Use) -> str:
    """What several uses are called: constraints of a workbench tell their cells in their texts."""
    return use.text if use.text.isidentifier() else "constraint"


def _uses(uses: Sequence[Use], of: Mapping[str, str]) -> list[Use]:
    groups: dict[tuple[str, str, str, tuple[str, ...]], list[Use]] = {}
    for use in uses:
        cells = tuple(of[cell] for cell in use.cells)
        groups.setdefault((_sort(use), use.given, use.premise, cells), []).append(use)
    return [
        Use(
            several[0].name,
            several[0].text if len(several) == 1 else f"{len(several)} x {text}",
            cells,
            given,
            premise,
            several[0].one_way,
        )
        for (text, given, premise, cells), several in groups.items()
    ]


def _premises(premises: Sequence[Premise], of: Mapping[str, str]) -> list[Premise]:
    groups: dict[object, list[Premise]] = {}
    for premise in premises:
        folds = frozenset(of.get(said.cell, "") for said in premise.says)
        # (what has constraints is apart, since these name their premise)
        key = premise.name if "" in folds else (folds, premise.is_believed)
        groups.setdefault(key, []).append(premise)
    return [_premise(group, of) for group in groups.values()]


def _premise(group: list[Premise], of: Mapping[str, str]) -> Premise:
    first = group[0]
    if len(group) == 1:
        says = tuple(StatedSeen(said.text, of.get(said.cell, "")) for said in first.says)
        return Premise(first.name, first.text, says, first.is_believed)
    cells = dict.fromkeys(of[said.cell] for premise in group for said in premise.says)
    says = tuple(StatedSeen("", cell) for cell in cells)
    return Premise(first.name, _several("premises", group), says, first.is_believed)


def _choices(choices: Sequence[ChoiceSeen], of: Mapping[str, str]) -> list[ChoiceSeen]:
    groups: dict[object, list[ChoiceSeen]] = {}
    for choice in choices:
        groups.setdefault(frozenset(of[cell] for cell in choice.cells), []).append(choice)
    return [
        ChoiceSeen(
            group[0].name,
            group[0].text if len(group) == 1 else _several("choices", group),
            group[0].sides if len(group) == 1 else (),
            tuple(dict.fromkeys(of[cell] for cell in group[0].cells)),
        )
        for group in groups.values()
    ]


def _named(group: list[CellSeen]) -> str:
    return (
        ", ".join(cell.text for cell in group) if len(group) <= _NAMED else _several("cells", group)
    )


def _several(what: str, group: Sequence[CellSeen | Premise | ChoiceSeen]) -> str:
    return f"{len(group)} {what}: {group[0].text} .. {group[-1].text}"
