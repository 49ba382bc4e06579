"""Whether what a certificate claims is true, by going through all points of a small network.

This reads neither the checker nor the evidence: only the claims, and what each line means.
"""

from collections.abc import Sequence
from itertools import combinations
from typing import Any

from lines_model import RULES, LineModel, allows, ends_of

from propbench import Session
from propbench.listing import CellStatement
from propbench.questions import Plan

# A compound with a cell of its own: `define twice v w = local k like v ; same v k ; sum k v w`.
RULES["twice"] = lambda x, y: y == 2 * x

Told = Sequence[Sequence[str]]


class Judge:
    """All plans of a network with some premises, and what claims come to by them."""

    def __init__(self, model: LineModel) -> None:
        self.model = model
        self._plans: dict[frozenset[str], list[Plan]] = {}

    def plans(self, given: Sequence[str]) -> list[Plan]:
        """All plans in which these premises hold."""
        key = frozenset(given)
        if key not in self._plans:
            whole = self._plans.get(frozenset())
            if whole is None:
                whole = self._plans[frozenset()] = list(self.model.all_plans([]))
            told = [each for name in key for each in self.model.told.premises[name]]
            self._plans[key] = [plan for plan in whole if all(allows(each, plan) for each in told)]
        return self._plans[key]

    def fit(self, given: Sequence[str], told: Told) -> list[Plan]:
        """Those of them that have the values that are told."""
        said = [CellStatement(cell, value) for cell, value in told]
        return [plan for plan in self.plans(given) if all(allows(each, plan) for each in said)]

    def is_true(self, claim: Any) -> bool:
        """Whether a claim of a certificate is true."""
        sort, says = claim
        return bool(getattr(self, f"_{sort}")(**says))

    def _fits(self, given: Sequence[str], told: Told) -> bool:
        return bool(self.fit(given, told))

    def _fails(self, given: Sequence[str], told: Told) -> bool:
        return not self.fit(given, told)

    def _optimum(self, given: Sequence[str], sort: str, cell: str, value: int, bound: int) -> bool:
        values = [int(plan[cell]) for plan in self.plans(given)]
        beyond = [each for each in values if (each < bound if sort == "least" else each > bound)]
        assert sort in ("least", "greatest")
        return value in values and not beyond

    def _conflicts(
        self,
        given: Sequence[str],
        keep: Sequence[str],
        told: Told,
        sets: Any,
        outs: Any,
        full: bool,
    ) -> bool:
        free = [name for name in given if name not in keep]
        least: set[frozenset[str]] = set()
        repairs: set[frozenset[str]] = set()
        for some in subsets(free):
            if not self.fit([*keep, *some], told):
                if not any(each <= some for each in least):
                    least.add(some)
            elif not any(self.fit([*keep, *some, name], told) for name in set(free) - some):
                repairs.add(frozenset(free) - some)
        known, mended = [frozenset(each) for each in sets], [frozenset(each) for each in outs]
        is_each = set(known) <= least and set(mended) <= repairs and set(keep) <= set(given)
        is_once = len(set(known)) == len(known) and len(set(mended)) == len(mended)
        is_all = set(known) == least and (not mended or set(mended) == repairs)
        return is_each and is_once and (is_all or not full)

    def _plans_are(
        self, given: Sequence[str], show: Sequence[str], plans: Any, tree: Any, complete: bool
    ) -> bool:
        there = {tuple(plan[cell] for cell in show) for plan in self.plans(given)}
        said = [tuple(map(self._point, show, plan)) for plan in plans]
        assert all(len(plan) == len(show) for plan in plans)
        is_once = len(set(said)) == len(said) and set(said) <= there
        return is_once and (not complete or set(said) == there)

    def _best(self, given: Sequence[str], sort: str, cell: str, value: int, because: Any) -> bool:
        values = [int(plan[cell]) for plan in self.plans(given)]
        others = [int(plan[cell]) for plan in self.plans(because)]
        assert sort in ("least", "greatest") and set(because) <= set(given)
        beyond = [each for each in others if (each < value if sort == "least" else each > value)]
        return value in values and not beyond

    def _refuted(self, given: Sequence[str]) -> bool:
        return not self.plans(given)

    def _listed(self, given: Sequence[str], show: Sequence[str], plans: Any, because: Any) -> bool:
        if because is None:
            return self._plans_are(given, show, plans, None, False)
        return all(self._plans_are(each, show, plans, None, True) for each in (given, because))

    def _answer(self, given: Sequence[str], told: Told, ask: str, said: str) -> bool:
        """Whether a session that was told nothing else answers so."""
        with Session(self.model.session.program) as session:
            session.send_all(self.model.lines)
            for name in self.model.premises():
                session.send(f"{'bring' if name in given else 'kick'} {name}")
            session.send_all(f"tell guess {cell} {value}" for cell, value in told)
            return ask.startswith("ask ") and str(session.send(ask)) == said

    def _point(self, cell: str, text: str) -> object:
        if self.model.kinds[cell] == "span":
            low, high = ends_of(text)
            assert low == high
            return low
        return self.model.point(cell, text.strip("{}"))


def subsets(names: Sequence[str]) -> list[frozenset[str]]:
    """All sets of some of these, the smallest first."""
    return [frozenset(some) for n in range(len(names) + 1) for some in combinations(names, n)]
