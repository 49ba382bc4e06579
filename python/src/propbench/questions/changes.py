"""What is changed for a what-if: premises kicked out or brought in, and values told."""

from collections.abc import Iterable, Mapping, Sequence
from dataclasses import dataclass
from numbers import Integral
from operator import index

from propbench.given import names_given
from propbench.nearby import near_names
from propbench.questions.asking import cell_named, premises_named
from propbench.questions.model import Model
from propbench.showing import quoted

# A premise, a cell or its name, and a value, or the ends of a range.
ToldValue = Sequence[object]


@dataclass(frozen=True)
class Change:
    """Premises to kick out and to bring in, and what to tell in addition."""

    kick: str | tuple[str, ...] = ()
    bring: str | tuple[str, ...] = ()
    tell: tuple[tuple[object, ...], ...] = ()

    @staticmethod
    def of(said: "Change | Mapping[str, object]") -> "Change":
        """The change that a dict tells, with what is to `kick`, `bring` and `tell`. Raises
        TypeError where it has anything else."""
        if isinstance(said, Change):
            return said
        if not isinstance(said, Mapping):
            raise TypeError(
                f"a what-if is a dict of what to kick, bring and tell: {said!r} is none"
            )
        for key in said:
            if key not in ("kick", "bring", "tell"):
                near = near_names(key, ("kick", "bring", "tell"))
                hint = f" Did you mean {near[0]}?" if near else ""
                raise TypeError(f"what-ifs kick, bring and tell, and don't {quoted(key)}.{hint}")
        return changed(**said)  # type: ignore[arg-type]  # (looked at there)


def changed(
    kick: str | Iterable[str] = (),
    bring: str | Iterable[str] = (),
    tell: Iterable[ToldValue] = (),
) -> Change:
    """The change. Raises TypeError and ValueError where it has another form."""
    return Change(_given(kick), _given(bring), tuple(map(_told, tell)))


def _given(names: object) -> str | tuple[str, ...]:
    """Names of premises. (Which of them a text has is known once the premises are.)"""
    return names if isinstance(names, str) else names_given(names)


def _told(given: object) -> tuple[object, ...]:
    """One of the statements that are told. Raises ValueError where it has another form."""
    parts = tuple(given) if isinstance(given, tuple | list) else ()
    if len(parts) not in (3, 4) or not isinstance(parts[0], str):
        raise ValueError(
            "what is told is a list, each a premise, a cell and a value, or its two ends, as "
            f'[("guess", x, 3), ("Ben", y, 4, 6)]: {given!r} is none of these'
        )
    return parts


@dataclass(frozen=True)
class Line:
    """A statement of a what-if on a line: the premise, by the user's name, the cell, the value."""

    premise: str
    cell: str
    value: str


@dataclass(frozen=True)
class Resolved:
    """A change, as lines make it, and which of the user's premises are believed then."""

    kicked: tuple[str, ...]
    brought: tuple[str, ...]
    believed: tuple[str, ...]
    told: tuple[Line, ...]
    lines: tuple[str, ...]


def resolved(model: Model, change: Change) -> Resolved:
    """The lines of a change. Raises NoSuchName for a premise or cell that isn't there, ValueError
    and TypeError for a value that a cell can't have."""
    kicked, brought = premises_named(model, change.kick), premises_named(model, change.bring)
    told = []
    for premise, cell, *value in change.tell:
        name = cell_named(model, cell)  # type: ignore[arg-type]  # (looked at there)
        text = value_text(model, str(premise), name, *value)
        told.append(Line(str(premise), model.cell_name(name), text))
    out = set(kicked) - set(brought)
    names = dict.fromkeys([*model.believed(), *brought, *(line.premise for line in told)])
    believed = tuple(name for name in names if name not in out)
    lines = [f"kick {model.line_name(name)}" for name in kicked if name in out]
    lines += [f"bring {model.line_name(name)}" for name in brought]
    lines += [f"tell {model.line_name(each.premise)} {each.cell} {each.value}" for each in told]
    lines += [
        f"bring {model.line_name(name)}"
        for name in dict.fromkeys(each.premise for each in told)
        if name not in out
    ]
    return Resolved(tuple(kicked), tuple(brought), believed, tuple(told), tuple(lines))


def value_text(model: Model, premise: str, cell: str, value: object, high: object = None) -> str:
    """What is told of a cell, a value or the numbers up to another, as a line says it. Raises
    ValueError and TypeError for what can't be told."""
    value, high = _plain(value), _plain(high)
    candidates = model.candidates(cell)
    if not (candidates is None or isinstance(candidates, range) or isinstance(value, bool)):
        for name in [value] if value in candidates else _several(value):
            if name not in candidates:
                near = near_names(str(name), candidates)
                hint = f" Did you mean {near[0]}?" if near else ""
                raise ValueError(f"{cell} can't be {quoted(str(name))}.{hint}")
    return model.telling(premise, cell, value, high)


def _plain(value: object) -> object:
    """A whole number of another sort, as numpy's, as Python's own; any other value as it is."""
    return index(value) if isinstance(value, Integral) and not isinstance(value, bool) else value


def _several(value: object) -> list[object]:
    if isinstance(value, str):
        return list(names_given(value))
    return list(value) if isinstance(value, Iterable) else [value]
