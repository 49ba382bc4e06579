"""What came of a search: a plan, a contradiction in all cases, or neither."""

from collections.abc import Sequence
from dataclasses import dataclass

from propbench.questions.model import Plan
from propbench.questions.shown import listed


@dataclass(frozen=True)
class Fork:
    """A cell of the user's in cases that cover all that may be, with what each comes to."""

    cell: str
    cases: tuple[tuple[str, "Fork | None"], ...]


@dataclass(frozen=True)
class Fits:
    """A plan in points, at which each constraint was evaluated; `values` are these points as lines
    say them."""

    plan: Plan
    values: dict[str, str]


@dataclass(frozen=True)
class Cannot:
    """A contradiction in all cases: these premises of lines can't all hold. `tree` has the cases,
    None where there was but one."""

    names: frozenset[str]
    tree: Fork | None


@dataclass(frozen=True)
class Open:
    """Neither a plan nor a contradiction was found. `why` says what stood in the way."""

    why: str


Outcome = Fits | Cannot | Open


class NothingFits(ValueError):
    """There is no plan, or none was found in time: so nothing can be said of one. `premises` can't
    all hold where it is told why there is none, and are None where it isn't: after the end of
    `seconds` that means nothing of whether there is a plan."""

    premises: tuple[str, ...] | None = None

    @staticmethod
    def because_of(premises: Sequence[str]) -> "NothingFits":
        """That there is no plan, since these can't all hold."""
        by = listed(premises)
        why = (
            f"{by} can't {_ALL.get(len(premises), 'all ')}hold" if by else "what always holds can't"
        )
        made = NothingFits(f"nothing fits: {why}")
        made.premises = tuple(premises)
        return made

    @staticmethod
    def in_time() -> "NothingFits":
        """That none was found in time."""
        return NothingFits("no plan was found in time; that there is one is not refuted")


# How many of so few premises can't hold.
_ALL = {1: "", 2: "both "}
