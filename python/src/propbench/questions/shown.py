"""How results are shown: as text, as a table of a notebook, as a table of pandas if it is there."""

from collections.abc import Mapping, Sequence
from importlib import import_module
from typing import TYPE_CHECKING, Any

from propbench.showing import printable
from propbench.tables import table

if TYPE_CHECKING:
    from propbench.questions.certificate import Certificate

NOT_REFUTED = "not refuted"
# A text in a row has so many letters at the most.
_LONGEST = 60


class Shown:
    """A result with a headline and rows under heads. `complete` is False where the question was cut
    before all was found, and `certificate` has what anyone can ask the program again."""

    complete: bool
    _certificate: "Certificate | None"

    def headline(self) -> str:
        """The result in a sentence, here of a `least`.

        >>> w = Workbench()
        >>> x = w.number("x", 3, 9)
        >>> w.least(x).headline()
        'The least x is 3:'
        """
        raise NotImplementedError

    def heads(self) -> Sequence[str]:
        """The heads of the table, here of `plans`.

        >>> w = Workbench()
        >>> x = w.number("x", 3, 9)
        >>> w.plans([x]).heads()
        ('x',)
        """
        raise NotImplementedError

    def rows(self) -> Sequence[Sequence[object]]:
        """The rows of the table, here of `plans`.

        >>> w = Workbench()
        >>> x = w.number("x", 3, 4)
        >>> sorted(w.plans([x]).rows())
        [[3], [4]]
        """
        raise NotImplementedError

    @property
    def certificate(self) -> "Certificate":
        """What anyone can ask the program again. Raises ValueError where there is nothing to show,
        or no way to show it, and as `Session` does.

        >>> w = Workbench()
        >>> x = w.number("x", 3, 9)
        >>> w.least(x).certificate.check()
        True
        """
        if self._certificate is None:
            raise ValueError("there is nothing that a certificate could show")
        return self._certificate.finished()

    def __str__(self) -> str:
        rows = [[said(value) for value in row] for row in self.rows()]
        told = printable(self.headline())
        return "\n".join([told, *([table(self.heads(), rows, "  ")] if rows else [])])

    def __repr__(self) -> str:
        return str(self)

    def _repr_html_(self) -> str:
        heads = "".join(f"<th>{_escaped(head)}</th>" for head in self.heads())
        rows = "".join(
            f"<tr>{''.join(f'<td>{_escaped(value)}</td>' for value in row)}</tr>"
            for row in self.rows()
        )
        told = f"<p>{_escaped(self.headline())}</p>"
        head = f"<thead><tr>{heads}</tr></thead>"
        return f"{told}<table>{head}<tbody>{rows}</tbody></table>" if rows else told

    # (a DataFrame, which has no type here: pandas need not be there)
    def to_pandas(self) -> Any:
        """The table as a DataFrame. Raises ImportError where pandas isn't there.

        >>> w = Workbench()
        >>> x = w.number("x", 3, 4)
        >>> sorted(w.plans([x]).to_pandas()["x"])  # doctest: +SKIP
        [3, 4]
        """
        try:
            pandas = import_module("pandas")
        except ImportError:
            raise ImportError("a table of pandas needs pandas, which isn't installed") from None
        return pandas.DataFrame([list(row) for row in self._values()], columns=list(self.heads()))

    def _values(self) -> Sequence[Sequence[object]]:
        """The rows as a program goes on with them: what is a number is one."""
        return self.rows()


def said(value: object) -> str:
    """A value in a table."""
    if isinstance(value, bool):
        return "yes" if value else "no"
    if isinstance(value, tuple | list):
        return ", ".join(map(said, value))
    return "" if value is None else str(value)


def shortened(text: str) -> str:
    """A text that is no longer than a row of a table can show."""
    return text if len(text) <= _LONGEST else f"{text[: _LONGEST - 3]}..."


def listed(names: Sequence[str], joint: str = "and") -> str:
    """Names in a sentence."""
    shown = [printable(name) for name in names]
    return f" {joint} ".join([*([", ".join(shown[:-1])] if shown[1:] else []), *shown[-1:]])


def counted(kinds: Mapping[str, int]) -> str:
    """How many others there are of which kind, as `3 others: 2 lengths and 1 wish`; "" for none."""
    number = sum(kinds.values())
    ordered = sorted(kinds.items(), key=lambda pair: -pair[1])
    told = [f"{count} {kind if count == 1 else several(kind)}" for kind, count in ordered]
    return f"{number} other{'' if number == 1 else 's'}: {listed(told)}" if told else ""


def several(kind: str) -> str:
    """The name of several of a kind."""
    return f"{kind}{'es' if kind.endswith(('s', 'sh', 'ch')) else 's'}"


def _escaped(value: object) -> str:
    import html

    return html.escape(printable(said(value)))
