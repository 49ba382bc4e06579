"""What a cell may be over all plans: by questions that take many asks."""

from propbench.clock import Clock
from propbench.model.answers import Left
from propbench.model.kinds import Domain, Plain
from propbench.model.nodes import Declared
from propbench.questions import Questions
from propbench.values import Elements, Span

_MOST_ELEMENTS = 64


def over_all_plans(
    asked: Questions, cell: Declared, seconds: float | None
) -> tuple[Left, bool] | None:
    """The range of a number, or the elements that some plan has, and whether that is proved to be
    all and no more, as far as that is found out in time; None where no plan fits. Raises ValueError
    for a symbol."""
    if cell.kind is Plain.NUMBER:
        return _range(asked, cell.name, seconds)
    if cell.kind is Plain.SYMBOL:
        raise ValueError(f"{cell.name!r} is a symbol, and of these there is no end of plans")
    plans = asked.plans([cell.name], most=_MOST_ELEMENTS, seconds=seconds)
    there = {plan[cell.name] for plan in plans}
    if not there:
        return None if plans.complete else (_all(cell), False)
    if len(there) == 1 and plans.complete:
        [value] = there
        return value, True
    if not plans.complete:
        return _all(cell), False
    if isinstance(cell.kind, Domain):
        return Elements(tuple(name for name in cell.kind.elements if name in there)), True
    return _all(cell), True


def _all(cell: Declared) -> Elements:
    """All that the cell may be."""
    return Elements(cell.kind.elements if isinstance(cell.kind, Domain) else ("yes", "no"))


def _range(asked: Questions, name: str, seconds: float | None) -> tuple[Left, bool] | None:
    clock = Clock(seconds, None)
    # (half the time is for each end)
    half = None if seconds is None else seconds / 2
    least = asked.least(name, seconds=half)
    if least.value is None and least.proved:
        return None
    greatest = asked.greatest(name, seconds=clock.seconds_left())
    ends = [end.value if end.proved else end.bound for end in (least, greatest)]
    if ends[0] is None or ends[1] is None:
        raise ValueError(f"how far {name!r} goes is not known: give it a low and a high end")
    low, high = ends[0], ends[1]
    return low if low == high else Span(low, high), least.proved and greatest.proved
