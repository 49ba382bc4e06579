"""Jobs that an executor does, by threads, processes or other machines. What it has no answer for,
as where a worker dies, is done again here: so that costs the time of a job, and no answer."""

from collections.abc import Callable, Iterator, Mapping
from typing import TYPE_CHECKING, TypeVar

from propbench.clock import Clock

if TYPE_CHECKING:
    from concurrent.futures import Executor, Future

AnyJob = TypeVar("AnyJob")
AnyAnswer = TypeVar("AnyAnswer")


def heard_from(
    executor: "Executor",
    do: Callable[[AnyJob], AnyAnswer | None],
    jobs: Mapping[str, AnyJob],
    again: Callable[[AnyJob], AnyAnswer | None],
    clock: Clock,
) -> Iterator[tuple[str, AnyAnswer | None]]:
    """What comes of jobs by name, which are all begun at once, as far as there is time: None where
    it was not found out. `again` does one here."""
    futures = {name: _submitted(executor, do, job) for name, job in jobs.items()}
    try:
        for name, future in futures.items():
            yield name, _result(future, clock) or again(jobs[name])
    finally:
        clock.end()
        for future in futures.values():
            if future is not None:
                future.cancel()


def _submitted(
    executor: "Executor", do: Callable[[AnyJob], AnyAnswer | None], job: AnyJob
) -> "Future[AnyAnswer | None] | None":
    """A job on its way, None where the executor takes none any more."""
    try:
        return executor.submit(do, job)
    except RuntimeError:
        return None


def _result(future: "Future[AnyAnswer | None] | None", clock: Clock) -> AnyAnswer | None:
    """What a job came to, None where its worker died or could not ask in time."""
    # (What an executor raises where a worker dies is its own: so nothing is told apart here. The
    # job is done again, which raises what is wrong with it, if anything is.)
    try:
        return None if future is None else future.result(clock.reply_left())
    except Exception:
        return None
