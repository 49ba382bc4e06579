"""The premises of a workbench, as its user calls them, and whether each is believed."""

from fractions import Fraction

from propbench.model.events import Choice, Read, Required, Statement, Told
from propbench.model.nodes import Declared
from propbench.nearby import near_names


class PremisesInOrder:
    """Premises and choices by name, in the order of their first mention."""

    def __init__(self) -> None:
        self.believed: dict[str, bool] = {}
        self.choices: dict[str, Choice] = {}
        self.statements: dict[str, list[Statement]] = {}
        self.always: dict[Declared, list[tuple[Fraction, Fraction]]] = {}

    def copy(self) -> "PremisesInOrder":
        """The same, which changes by itself."""
        made = PremisesInOrder()
        made.believed, made.choices = dict(self.believed), dict(self.choices)
        made.statements = {name: list(stated) for name, stated in self.statements.items()}
        made.always = {cell: list(ends) for cell, ends in self.always.items()}
        return made

    def check(self, name: str) -> None:
        """Raises ValueError where something can't be stated under this name."""
        if not isinstance(name, str):
            raise TypeError(f"a premise is named by a text: {name!r}")
        if name in self.choices:
            raise ValueError(f"{name!r} is a choice, and nothing is stated under a choice")

    def check_choice(self, name: str) -> None:
        """Raises ValueError where a choice can't be called so."""
        if name in self.choices or name in self.believed:
            what = "choice" if name in self.choices else "premise"
            raise ValueError(f"there is a {what} of this name: {name!r}")

    def check_known(self, name: str) -> None:
        """Raises ValueError where no premise is called so."""
        self.check(name)
        if name not in self.believed:
            near = near_names(name, self.believed)
            hint = f" Did you mean {' or '.join(map(repr, near))}?" if near else ""
            raise ValueError(f"nothing is stated under {name!r}.{hint}")

    def state(self, statement: Statement) -> None:
        """Takes in a statement under its premise."""
        if isinstance(statement, Read) and statement.premise is None:
            ends = statement.reading.low, statement.reading.high
            self.always.setdefault(statement.cell, []).append(ends)
        if statement.premise is not None:
            self.believed.setdefault(statement.premise, True)
            self.statements.setdefault(statement.premise, []).append(statement)

    def readings(self, name: str) -> list[Read]:
        """The readings that a premise states."""
        return [each for each in self.statements.get(name, ()) if isinstance(each, Read)]

    def readings_of(self, cell: Declared) -> list[tuple[Fraction, Fraction]]:
        """Between which reals a quantity lies by readings that hold always."""
        return self.always.get(cell, [])

    def forget(self, name: str) -> None:
        """Takes in that nothing is stated under a premise any more."""
        del self.believed[name]
        del self.statements[name]

    def text(self, name: str) -> str:
        """What is stated under a premise, for people."""
        texts = [
            each.told
            for each in self.statements.get(name, ())
            if isinstance(each, (Required, Told))
        ]
        return "; ".join(dict.fromkeys(texts))

    def exactly(self, name: str) -> str:
        """All that is stated under a premise, by its cells."""
        # (of a curve that is told by pieces each is called the same)
        return "; ".join(dict.fromkeys(each.text for each in self.statements.get(name, ())))

    @property
    def in_force(self) -> list[str]:
        """The premises that are believed."""
        return [name for name, is_believed in self.believed.items() if is_believed]
