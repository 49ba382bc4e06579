"""What a run takes, in seconds of one processor, with all programs that it begins and ends."""

import resource
from collections.abc import Callable
from dataclasses import dataclass
from typing import Generic, TypeVar

Result = TypeVar("Result")


@dataclass
class Spent(Generic[Result]):
    """What something took, in seconds of one processor, and what came of it."""

    seconds: float
    result: Result

    @staticmethod
    def of(run: Callable[[], Result]) -> "Spent[Result]":
        """That of a run, with all programs that it begins and ends."""
        before = _used()
        result = run()
        return Spent(_used() - before, result)


def _used() -> float:
    whose = (resource.RUSAGE_SELF, resource.RUSAGE_CHILDREN)
    found = [resource.getrusage(each) for each in whose]
    return sum(each.ru_utime + each.ru_stime for each in found)
