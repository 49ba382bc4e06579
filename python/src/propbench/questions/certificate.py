"""Certificates: claims about a network, with what anyone can ask a program again to see them."""

import os
from collections import Counter
from collections.abc import Callable, Iterable, Mapping, Sequence
from dataclasses import dataclass, field
from functools import partial

from propbench.finding import find_wide
from propbench.given import path_given
from propbench.questions import checker
from propbench.questions.checker import CertificateError
from propbench.questions.completing import Completing
from propbench.questions.model import Model
from propbench.questions.outcomes import Fits, Fork
from propbench.questions.trial import Trial
from propbench.refusals import LimitReached
from propbench.words import is_silent

# What is said where a plan can't be shown.
OPEN = (
    "there is no certificate of this: a plan leaves open cells that you never see, and no values "
    "were found for these"
)
# So many lines are told that differ.
_LINES = 5
# What JSON has of a tree of cases: a cell, and its cases with what each comes to.
Tree = list[object] | dict[str, str] | str | None


class Certificate:
    """Claims, what shows them, and the lines that make the network, its base.

    Conflicts, repairs, optima, plans, the room of a cell (`w.slack`) and tables of scenarios have
    one. What `ask` tells has none: `w.scenarios({"now": {}}, [x])` says the same, and has one.
    Whoever gets the file asks a fresh program again, by `propdesk check least.claim --base
    plan.prop`, or in Python:

    >>> w = Workbench()
    >>> x = w.number("x", 3, 9)
    >>> w.least(x).certificate.save("least.claim")
    >>> w.save("plan.prop")
    >>> Certificate.load("least.claim").check(base="plan.prop")
    True
    """

    def __init__(
        self, lines: Iterable[str], finish: Callable[[], Sequence[str]] | None = None
    ) -> None:
        """Of these lines, or of those that something gives once they are asked for. `load` reads a
        file. Raises TypeError for a text."""
        if isinstance(lines, str):
            raise TypeError(f"it is made of lines; Certificate.load({lines!r}) reads a file")
        self._lines, self._finish = tuple(lines), finish

    @staticmethod
    def load(path: str | os.PathLike[str]) -> "Certificate":
        """The certificate that a file has. Raises OSError; `check` tells whether it is one.

        >>> w = Workbench()
        >>> x = w.number("x", 3, 9)
        >>> w.least(x).certificate.save("least.claim")
        >>> Certificate.load("least.claim").check()
        True
        """
        return Certificate(_text_of(path_given(path)).removesuffix("\n").split("\n"))

    def finished(self) -> "Certificate":
        """Itself, once it has its lines. Raises ValueError where a plan can't be shown, and as
        `Session` does.

        >>> w = Workbench()
        >>> x = w.number("x", 3, 9)
        >>> certificate = w.least(x).certificate
        >>> certificate.finished() is certificate
        True
        """
        if self._finish is not None:
            self._lines, self._finish = tuple(self._finish()), None
        return self

    @property
    def lines(self) -> tuple[str, ...]:
        """The lines of the certificate. Raises as `finished`.

        >>> w = Workbench()
        >>> x = w.number("x", 3, 9)
        >>> w.least(x).certificate.lines[0]
        'propbench certificate 1'
        """
        return self.finished()._lines

    @property
    def base(self) -> tuple[str, ...]:
        """The lines that make the network, as they are saved.

        >>> w = Workbench()
        >>> x = w.number("x", 3, 9)
        >>> "fix x 3..9" in w.least(x).certificate.base
        True
        """
        return self.lines[3:-1]

    def check(
        self,
        program: str | os.PathLike[str] | None = None,
        base: str | os.PathLike[str] | Sequence[str] | None = None,
    ) -> bool:
        """True where a fresh session of the program answers so that the claims hold.

        The program is the one given, or the one that a workbench finds. Where a base is given,
        lines or the file that a workbench was saved to, the network has to be made of these lines.
        Raises CertificateError where something differs, OSError and NoProgram.

        >>> w = Workbench()
        >>> x = w.number("x", 3, 9)
        >>> w.save("plan.prop")
        >>> w.least(x).certificate.check(base="plan.prop")
        True
        """
        if base is not None:
            check_base(self.lines, base)
        return check_lines(self.lines, find_wide(program).path)

    def save(self, path: str | os.PathLike[str]) -> None:
        """Writes the certificate into a file, for `propdesk check`. Raises OSError; and as
        `finished`, where nothing is written.

        >>> w = Workbench()
        >>> x = w.number("x", 3, 9)
        >>> w.least(x).certificate.save("least.claim")
        >>> with open("least.claim", encoding="utf-8") as file:
        ...     print(next(file).strip())
        propbench certificate 1
        """
        from propbench.files import write_file

        write_file(path_given(path), "".join(f"{line}\n" for line in self.lines))


def check_base(lines: Sequence[str], base: str | os.PathLike[str] | Sequence[str]) -> None:
    """Raises CertificateError where the network of a certificate is not made of these lines, or
    those of a file, and OSError."""
    if isinstance(base, str | os.PathLike):
        base = _text_of(base).split("\n")
    now, then = _said(base), _said(lines[3:-1])
    if now != then:
        raise CertificateError(f"it is of another network; {_changes(then, now)}")


def _text_of(path: str | os.PathLike[str]) -> str:
    """What a file has, whatever bytes there are. Raises OSError."""
    with open(path, encoding="utf-8", errors="surrogateescape", newline="\n") as file:
        return file.read()


def _said(lines: Iterable[str]) -> list[str]:
    return [line.strip(" \t\r") for line in lines if not is_silent(line)]


def _changes(then: Sequence[str], now: Sequence[str]) -> str:
    """What lines have come and gone."""
    come, gone = Counter(now) - Counter(then), Counter(then) - Counter(now)
    parts = [("since then", come), ("gone since then", gone)]
    said = [f"{when}: {_some([*lines.elements()])}" for when, lines in parts if lines]
    return "; ".join(said) or "its lines stand in another order"


def _some(lines: Sequence[str]) -> str:
    shown = ", ".join(lines[:_LINES])
    return shown if len(lines) <= _LINES else f"{shown} and {len(lines) - _LINES} lines more"


def check_lines(lines: Sequence[str], program: str) -> bool:
    """True where the program answers so that the lines of a certificate hold. Raises
    CertificateError, also for lines that are none."""
    return checker.check(lines, program)


@dataclass
class Evidence:
    """What shows claims about a model, gathered from what a trial found."""

    base: list[str]
    mark: str
    cells: Mapping[str, str]
    premises: Mapping[str, str]
    program: str
    basis: list[str] = field(default_factory=list)
    rooms: dict[str, str] = field(default_factory=dict)
    choices: list[tuple[str, str]] = field(default_factory=list)
    plans: list[tuple[list[str], dict[str, str]]] = field(default_factory=list)
    trees: list[tuple[object, Tree]] = field(default_factory=list)

    @staticmethod
    def of(trial: Trial) -> "Evidence":
        """That of a trial, as yet without plans and trees."""
        rooms = {
            trial.cell_line[cell]: str(room)
            for cell, room in trial.rooms.items()
            if room is not None and room != trial.whole[cell]
        }
        basis = [trial.line[premise] for premise in trial.basis]
        names = trial.cell_line, trial.line, trial.session.program
        return Evidence(trial.base, trial.mark, *names, basis, rooms, list(trial.choices))

    @staticmethod
    def without_trial(model: Model, mark: str) -> "Evidence":
        """That of a model for claims which need neither plans nor choices."""
        cells = {cell: model.cell_name(cell) for cell in model.cells()}
        premises = {premise: model.line_name(premise) for premise in model.premises()}
        base = [line for line in model.base() if not is_silent(line)]
        return Evidence(base, mark, cells, premises, model.session.program)

    def lines_of(self, premises: Iterable[str]) -> list[str]:
        """The names of premises on lines, as the checker wants them."""
        return sorted(self.premises[premise] for premise in premises)

    def add_plan(self, premises: Iterable[str], fits: Fits) -> None:
        """Adds a plan in which these premises hold."""
        made = self.lines_of(premises), on_lines(self.cells, fits)
        if made not in self.plans:
            self.plans.append(made)

    def add_tree(
        self, premises: Iterable[str], told: Sequence[Sequence[str]], tree: Fork | None
    ) -> None:
        """Adds the cases that show that nothing fits, where there are some."""
        if tree is not None:
            self.trees.append(([self.lines_of(premises), told], as_json(tree)))

    def certificate(self, claims: Sequence[tuple[str, dict[str, object]]]) -> Certificate | None:
        """The certificate of claims, each by its sort and what it says; None where there are none.
        Plans are made whole once its lines are asked for."""
        if not claims:
            return None
        if self.plans or any(sort == "plans_are" for sort, _ in claims):
            return Certificate((), partial(self._with_whole_plans, claims))
        return Certificate(self._lines(claims, []))

    def finished(self, claims: Sequence[tuple[str, dict[str, object]]]) -> list[str]:
        """The lines of the certificate of claims, of which the plans were found. Raises
        ValueError."""
        return self._with_whole_plans(claims) if self.plans else self._lines(claims, [])

    def _with_whole_plans(self, claims: Sequence[tuple[str, dict[str, object]]]) -> list[str]:
        """The lines of a certificate in which each plan has a value for each cell of the network.
        Raises ValueError where none are found, or there is no room to name them."""
        try:
            completing = Completing(self.program, self.base, self.mark)
        except LimitReached:
            raise ValueError(OPEN) from None

        def whole(names: Iterable[str], values: Mapping[str, str]) -> dict[str, str]:
            found = completing.whole(names, values)
            if found is None:
                raise ValueError(OPEN)
            return found

        with completing:
            plans = [(names, whole(names, values)) for names, values in self.plans]
            made = []
            for sort, claim in claims:
                if isinstance(given := claim["given"], list) and "tree" in claim:
                    claim = {**claim, "tree": _mapped(claim["tree"], partial(whole, given))}
                made.append((sort, claim))
        return self._lines(made, plans)

    def _lines(
        self,
        claims: Sequence[tuple[str, dict[str, object]]],
        plans: Sequence[tuple[list[str], dict[str, str]]],
    ) -> list[str]:
        import hashlib
        import json

        evidence = {
            "mark": self.mark,
            "basis": self.basis,
            "rooms": self.rooms,
            "choices": self.choices,
            "plans": [{"in": names, "values": values} for names, values in plans],
            "trees": self.trees,
        }
        lines = [checker.HEAD, json.dumps(claims), json.dumps(evidence), *self.base]
        return [*lines, hashlib.sha256("\n".join(lines).encode()).hexdigest()]


def on_lines(cells: Mapping[str, str], fits: Fits) -> dict[str, str]:
    """A plan as lines say it, by the names of cells on them."""
    return {cells[cell]: value for cell, value in fits.values.items()}


def _mapped(tree: object, whole: Callable[[dict[str, str]], dict[str, str]]) -> object:
    """A tree as JSON has it, of which each plan is made whole."""
    if isinstance(tree, dict):
        return whole(tree)
    if not isinstance(tree, list):
        return tree
    cell, cases = tree
    return [cell, [[case, _mapped(below, whole)] for case, below in cases]]


def as_json(tree: Fork | None) -> Tree:
    """A tree as JSON has it."""
    return None if tree is None else [tree.cell, [[case, as_json(t)] for case, t in tree.cases]]
