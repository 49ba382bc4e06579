"""Answers as a table: as text, and as HTML where a notebook shows it."""

from collections.abc import Iterable, Mapping
from dataclasses import dataclass

from propbench.model.answers import Answer, plan_text
from propbench.showing import printable
from propbench.tables import table

_HEADS = ("cell", "value", "because of")


@dataclass(frozen=True)
class Table:
    """Answers, one a row, in the plan on which the choices stand."""

    answers: tuple[Answer, ...]
    choices: Mapping[str, object]
    notes: tuple[str, ...] = ()

    @property
    def rows(self) -> list[tuple[str, str, str]]:
        """The rows as texts: cell, value, reasons."""
        return [
            (each.name, _value(each), ", ".join(each.because) or "what holds always")
            for each in self.answers
        ]

    def __str__(self) -> str:
        return "\n".join([table(_HEADS, self.rows), *self._below()])

    def _repr_html_(self) -> str:
        head = _html_row("th", _HEADS)
        rows = "".join(_html_row("td", row) for row in self.rows)
        below = "".join(f"<p>{_escaped(line)}</p>" for line in self._below())
        return f"<table>{head}{rows}</table>{below}"

    def _below(self) -> list[str]:
        """What is said below the rows."""
        plan = plan_text(self.choices)
        return [*([f"in this plan: {plan}"] if plan else []), *self.notes]


def _value(answer: Answer) -> str:
    return answer.value_text + ("" if answer.settled else " (not settled)")


def _html_row(tag: str, texts: Iterable[str]) -> str:
    cells = "".join(f"<{tag}>{_escaped(text)}</{tag}>" for text in texts)
    return f"<tr>{cells}</tr>"


def _escaped(text: str) -> str:
    from html import escape

    return escape(printable(text))
