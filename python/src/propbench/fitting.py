"""Which cell, or what behind `by`, does not fit what a line attaches.

Translated from docs/LANGUAGE.md ("Procedures"), to tell which word of a refused `attach` is meant.
"""

from propbench.kit import ANY, FROM, KIT, SPAN, TO, TRUTH
from propbench.known import Definition, Known, DefinitionStep

# What is not looked through: a definition may stand for 200,000 uses, 1,000 within one another.
MOST_USES = 20_000
MOST_DEPTH = 200


class Misfit(Exception):
    """A cell has another kind than its place takes. `place` is which of the attached cells it is,
    from 0, or None where it is a local of a definition; `wanted` is the kind that fits."""

    def __init__(self, place: int | None, wanted: str) -> None:
        super().__init__(place, wanted)
        self.place = place
        self.wanted = wanted


class Fitting:
    """Goes through what a use stands for, in the order in which the program does."""

    def __init__(self, known: Known) -> None:
        self.known = known
        self.left = MOST_USES
        self.depth = 0
        self.fit: set[tuple[str, tuple[str, ...], str]] = set()

    def check(self, name: str, kinds: tuple[str, ...], given: str) -> None:
        """Raises Misfit for the first cell that doesn't fit, of cells with these kinds. Nothing is
        said where the use stands for too much to look through."""
        if (name, kinds, given) in self.fit or self.left == 0 or self.depth == MOST_DEPTH:
            return
        self.left -= 1
        if name in KIT:
            self._check_procedure(name, kinds, given)
        elif name in self.known.definitions:
            self._check_definition(self.known.definitions[name], kinds, given)
        self.fit.add((name, kinds, given))

    def _check_procedure(self, name: str, kinds: tuple[str, ...], given: str) -> None:
        bound = {SPAN: "span", TRUTH: "truth"}
        relation = self.known.relations.get(given)
        if relation:
            bound |= {FROM: relation.first, TO: relation.second}
        for place, (shape, kind) in enumerate(zip(KIT[name].kinds, kinds)):
            if shape in (FROM, TO) and not relation:
                continue
            wanted = bound.setdefault(shape, kind) if shape == ANY else bound[shape]
            if kind != wanted:
                raise Misfit(place, wanted)

    def _check_definition(self, made: Definition, kinds: tuple[str, ...], given: str) -> None:
        self.depth += 1
        scope = dict(zip(made.parameters, kinds))
        for step in made.steps:
            if step.procedure:
                self._check_step(made, step, scope, given)
            else:
                scope[step.cells[0]] = scope[step.like] if step.like else step.kind
        self.depth -= 1

    def _check_step(
        self, made: Definition, step: DefinitionStep, scope: dict[str, str], given: str
    ) -> None:
        passed = given if step.given == "*" else step.given
        try:
            self.check(step.procedure, tuple(scope[cell] for cell in step.cells), passed)
        except Misfit as misfit:
            raise Misfit(_outer(made, step, misfit.place), misfit.wanted) from None


def _outer(made: Definition, step: DefinitionStep, place: int | None) -> int | None:
    """Which parameter of the definition stands at this place of its step, if one does."""
    if place is None or step.cells[place] not in made.parameters:
        return None
    return made.parameters.index(step.cells[place])
