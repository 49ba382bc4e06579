"""Of the premises that an optimum names those by which nothing is better, as far as that follows
without a search."""

from collections.abc import Iterator, Sequence
from contextlib import contextmanager

from propbench.model.answers import Answer, Conflict
from propbench.program import OutOfTime
from propbench.questions.bench import Bench
from propbench.questions.bounding import LEAST, Optimum


@contextmanager
def believing(bench: Bench, names: Sequence[str]) -> Iterator[None]:
    """Has a workbench believe these premises alone, as far as it has them, for a while."""
    with bench._set_aside():
        believe(bench, names)
        yield


def believe(bench: Bench, names: Sequence[str]) -> None:
    """Has a workbench believe these premises alone, as far as it has them."""
    model = bench.model
    believed = set(model.believed())
    for name in model.premises():
        if (name in names) != (name in believed):
            (bench.bring if name in names else bench.kick)(name)


def needed_in(bench: Bench, found: Optimum, seconds: float | None) -> tuple[str, ...] | None:
    """Premises by which nothing is better than an optimum, of those that it names, which alone are
    believed; None where that doesn't follow without a search, or not in time."""
    try:
        answer: Answer = bench.cell(found.cell).core(seconds=seconds)
    except (Conflict, OutOfTime):
        return None
    bound = answer.low if found.sort == LEAST else answer.high
    # (in the plan that choices make it may be other than in all: then an alternative is named)
    is_bound = found.proved and found.value is not None and bound == found.value
    return answer.because if is_bound and {*answer.because} <= {*found.because} else None
