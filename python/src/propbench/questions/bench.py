"""What questions use of a workbench beside its model: what a user does with it."""

from contextlib import AbstractContextManager
from typing import Any, Protocol

from propbench.model.answers import Answer
from propbench.questions.model import Model
from propbench.replies import Value


class Bench(Protocol):
    """A workbench. What stands in for a cell or a value is the workbench's own, which questions
    only pass on: that is what is Any here."""

    @property
    def model(self) -> Model:
        """The workbench as questions see it."""
        ...

    def kick(self, premise: str) -> None:
        """A premise is no longer believed."""
        ...

    def bring(self, premise: str) -> None:
        """A premise is believed again."""
        ...

    def tell(self, premise: str, cell: Any, value: Any, high: Any = None) -> None:
        """States a value under a premise."""
        ...

    def cell(self, name: str) -> Any:
        """The cell of this name."""
        ...

    def _set_aside(self) -> AbstractContextManager[None]:
        ...

    def _read(self, cell: str, reply: Value, inside: tuple[str, ...]) -> Answer:
        ...
