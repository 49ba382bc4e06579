"""Some plan, as it is shown."""

from collections.abc import Mapping, Sequence

from propbench.questions.certificate import Certificate
from propbench.questions.model import Model, Plan, Point
from propbench.questions.outcomes import Fits
from propbench.questions.planned import Planned, Scheduled


class Solution(Planned, dict[str, Point]):
    """A plan: a value of each cell but quantities, by its name. `choices` has for each choice the
    alternative that it takes; `schedule` is the plan of a project's tasks.

    >>> w = Workbench()
    >>> x = w.number("x", 3, 3)
    >>> w.solve()["x"], w.solve().choices
    (3, {})
    """

    complete = True

    def __init__(
        self,
        plan: Plan,
        choices: Mapping[str, object],
        certificate: Certificate | None,
        schedule: Scheduled | None = None,
    ) -> None:
        super().__init__(plan)
        self.choices, self.schedule = dict(choices), schedule
        self._certificate = certificate

    def headline(self) -> str:
        return "It fits:"

    def heads(self) -> Sequence[str]:
        return ("cell", "value")

    def rows(self) -> Sequence[Sequence[object]]:
        return [*self.items(), *self.choices.items()]


def solution_of(model: Model, fits: Fits, certificate: Certificate | None) -> Solution:
    """The plan of a model, without quantities, of which no plan has the real number."""
    plan = {cell: value for cell, value in fits.plan.items() if not model.is_measured(cell)}
    choices = model.chosen(fits.plan)
    return Solution(plan, choices, certificate, model.scheduled(fits.plan, choices, {}))
