"""By which readings a quantity is known of which nothing was read: each path by which laws lead to
it.

A path is what an answer is because of, where a reading that it is because of otherwise is left out,
and all others that add nothing then.
"""

from collections.abc import Sequence
from contextlib import AbstractContextManager
from dataclasses import dataclass
from typing import Protocol

from propbench.laboratory.reported import Bar, By
from propbench.laboratory.results import Results
from propbench.measuring.quantities import Quantity
from propbench.model.answers import Conflict
from propbench.model.measures import Interval
from propbench.program import OutOfTime
from propbench.questions.clock import Clock
from propbench.questions.shown import listed

# Of so many quantities at the most, and so many readings of each, it is looked for; and so many
# seconds, or this part of the time that is left.
_QUANTITIES, _READINGS, _SECONDS, _PART = 12, 8, 10.0, 0.25


class WhatIf(Protocol):
    """What is asked of a workbench."""

    @property
    def sought(self) -> tuple[Quantity, ...]:
        """The quantities of which nothing was read."""

    def what_if(self, *, kick: Sequence[str]) -> AbstractContextManager[object]:
        """Leaves premises out for a while."""


@dataclass(frozen=True)
class Path:
    """What a quantity is by some readings."""

    because: tuple[str, ...]
    interval: Interval


def paths_in(bench: WhatIf, results: Results, clock: Clock) -> dict[str, list[Bar]]:
    """For quantities of which nothing was read the intervals by each path, and by all together; of
    those to which one path leads there is nothing to tell."""
    left = clock.seconds_left()
    clock = Clock(_SECONDS if left is None else min(_SECONDS, left * _PART), None)
    answers = {each.name: each for each in results}
    found: dict[str, list[Bar]] = {}
    for quantity in bench.sought[:_QUANTITIES]:
        whole = answers[quantity.name]
        if whole.interval is None:
            continue
        without = [name for name in whole.because[:_READINGS] if not clock.is_over()]
        paths = [_path(bench, quantity, name, clock) for name in without]
        shown = {each.because: each.interval for each in paths if each is not None}
        if len(shown) > 1:
            bars = [Bar(f"by {listed(names)}", each, By.READING) for names, each in shown.items()]
            found[quantity.name] = [*bars, Bar("together", whole.interval, By.ALL)]
    return found


def _path(bench: WhatIf, quantity: Quantity, without: str, clock: Clock) -> Path | None:
    """What is known without a reading, by as few of the others as tell it; None for nothing."""
    out = [without]
    path = _known(bench, quantity, out, clock)
    for name in path.because[:_READINGS] if path else ():
        fewer = _known(bench, quantity, [*out, name], clock)
        if path and fewer and fewer.interval == path.interval:
            path, out = fewer, [*out, name]
    return path


def _known(bench: WhatIf, quantity: Quantity, out: Sequence[str], clock: Clock) -> Path | None:
    """What is known where premises are left out."""
    with bench.what_if(kick=out):
        try:
            answer = quantity.ask(seconds=clock.seconds_left())
        except (Conflict, OutOfTime):
            return None
    if not answer.because or not isinstance(answer.value, Interval):
        return None
    return Path(answer.because, answer.value)
