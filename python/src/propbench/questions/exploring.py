"""Which premises can't all hold, and which have to be given up: found by trying sets of them.

The cheapest set that hits all known conflicts is given up for a try. Either the rest has a plan:
then that set is a repair. Or it has not: then what the program names is shrunk to a minimal
conflict by leaving out one premise after another. (MARCO's way, with the map solved for its
cheapest sets.)
"""

from collections.abc import Mapping, Sequence
from dataclasses import dataclass

from propbench.questions.hitting import Hitting, bits_of
from propbench.questions.outcomes import Cannot, Fits, Fork, Open
from propbench.questions.searching import decided
from propbench.questions.trial import Case, Trial


@dataclass(frozen=True)
class KeptPlan:
    """A plan, and the premises that hold in it, as bits."""

    mask: int
    fits: Fits


@dataclass(frozen=True)
class Refuted:
    """A set of premises that can't all hold, with the cases that show it. It is `least` where the
    rest has a plan without any one of them."""

    mask: int
    tree: Fork | None
    least: bool


class Exploring:
    """The conflicts and repairs among some premises, as far as they are known."""

    def __init__(
        self,
        trial: Trial,
        premises: Sequence[str],
        weights: Mapping[str, float],
        told: Sequence[Case] = (),
    ) -> None:
        """Those among these premises, in this order, within what is supposed. What the trial always
        believes is none of them."""
        self.trial, self._told = trial, tuple(told)
        self.kept = tuple(trial.basis)
        self.premises = [premise for premise in premises if premise not in self.kept]
        self._bit = {premise: 1 << place for place, premise in enumerate(self.premises)}
        self.all = (1 << len(self.premises)) - 1
        self.weights = dict(weights)
        self._hitting = Hitting([weights.get(premise, 1) for premise in self.premises])
        self.plans: list[KeptPlan] = []
        self.conflicts: list[Refuted] = []
        self.repairs: list[int] = []
        # Whether all conflicts and repairs were found, and what was neither shown nor refuted.
        self.complete = False
        self.unknown: list[int] = []

    def weighing(self, weights: Mapping[str, float]) -> "Exploring":
        """A search by other weights, to which all counts that this one has found out."""
        made = Exploring(self.trial, self.premises, weights, self._told)
        made.plans, made.conflicts = list(self.plans), list(self.conflicts)
        for refuted in made.conflicts:
            made._hitting.learn(refuted.mask)
        return made

    @property
    def is_sure(self) -> bool:
        """Whether all that was looked at was decided."""
        return not self.unknown and all(each.least for each in self.conflicts)

    def names(self, mask: int) -> tuple[str, ...]:
        """The premises of a set."""
        return tuple(premise for premise in self.premises if self._bit[premise] & mask)

    def mask(self, premises: Sequence[str]) -> int:
        """The set of those among these premises that are not kept anyway."""
        return sum(self._bit.get(premise, 0) for premise in premises)

    def step(self) -> bool:
        """Finds one conflict or repair more; whether there may be others."""
        hit = self._hitting.next(self.trial.clock.is_over)
        if hit is None:
            self.complete = self._hitting.is_done and self.is_sure
            return False
        rest = self.all & ~hit
        outcome = self.try_out(rest)
        if isinstance(outcome, Refuted):
            self.conflicts.append(self.shrunk(outcome))
            self._hitting.learn(self.conflicts[-1].mask)
            return True
        if isinstance(outcome, KeptPlan):
            self.repairs.append(hit)
        else:
            self.unknown.append(rest)
        self._hitting.finish(hit)
        return not self.trial.clock.is_over()

    def try_out(self, mask: int) -> KeptPlan | Refuted | Open:
        """A plan in which all of these premises hold, or what can't hold of them."""
        for kept in self.plans:
            if kept.mask & mask == mask:
                return kept
        outcome = decided(self.trial, (*self.kept, *self.names(mask)), self._told)
        if isinstance(outcome, Cannot):
            return Refuted(self._named(outcome), outcome.tree, False)
        if isinstance(outcome, Fits):
            held = set(self.trial.model.held(outcome.plan))
            holding = self.mask([premise for premise in self.premises if premise in held])
            self.plans.append(KeptPlan(mask | holding, outcome))
            return self.plans[-1]
        return outcome

    def _named(self, outcome: Cannot) -> int:
        """The premises that can't all hold, of those that may be given up."""
        line = self.trial.line
        return self.mask([premise for premise in self.premises if line[premise] in outcome.names])

    def shrunk(self, refuted: Refuted) -> Refuted:
        """A minimal conflict among these premises."""
        mask, tree, least = refuted.mask, refuted.tree, True
        for bit in reversed(bits_of(mask)):
            if not mask & bit:
                continue
            number = mask.bit_count()
            self.trial.clock.tell(f"{number} premise{'' if number == 1 else 's'} can't all hold")
            outcome = self.try_out(mask & ~bit)
            if isinstance(outcome, Refuted):
                mask, tree = outcome.mask, outcome.tree
            elif isinstance(outcome, Open):
                least = False
        return Refuted(mask, tree, least)
