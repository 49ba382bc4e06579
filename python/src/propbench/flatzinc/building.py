"""A model in FlatZinc stated in a workbench: a cell for each variable, a constraint for each.

A variable that MiniZinc brought in and that a constraint defines is no cell: what it is defined as
stands in its place, and the other conditions of its definition hold always.
"""

from collections.abc import Callable, Container, Iterable, Sequence
from fractions import Fraction

from propbench.flatzinc import meaning, symbolic
from propbench.flatzinc.arithmetic import (
    NO,
    YES,
    constant,
    denied,
    every,
    same_truth,
    some,
    within,
)
from propbench.flatzinc.costs import with_costs
from propbench.flatzinc.floats import EXACT, Floats, is_of_floats
from propbench.flatzinc.forms import check
from propbench.flatzinc.lookups import with_pairs
from propbench.flatzinc.meaning import differing
from propbench.flatzinc.sets import Members, elements_of, is_same, places_of
from propbench.flatzinc.terms import (
    BLAMED,
    TABLE,
    Call,
    Constraint,
    Flat,
    FlatTerm,
    Name,
    NotSupported,
    Numbers,
    Text,
    Variable,
)
from propbench.model.cells import Cell, ElementCell, NumberCell, TruthCell
from propbench.model.expressions import (
    Element,
    Number,
    Truth,
    count,
    domain_of_element,
    element,
    pairs,
)
from propbench.model.harmless import is_harmless
from propbench.model.kinds import Domain, Point
from propbench.model.meaning import PlanPoints as Points
from propbench.model.meaning import value_of
from propbench.model.nodes import Node, Op
from propbench.plain import PlainWorkbench
from propbench.questions import Plan

_INTRODUCED = "var_is_introduced"
# Definitions lie so deep within one another at the most; then a cell has the value.
_DEEPEST = 30
# By this part of it a float is looked for that is better than the best in steps.
_MARGIN = 10**4
# An element says of so many rows at the most which it is.
_MOST_ROWS = 64


class Built:
    """A model in a workbench."""

    def __init__(self, flat: Flat, workbench: PlainWorkbench) -> None:
        """States all of the model. Raises NotSupported, and ValueError where there is no room."""
        check(flat)
        flat = with_costs(with_pairs(flat))
        self.flat, self.workbench = flat, workbench
        # What the floats are, where there are some.
        has_floats = any(each.is_float for each in flat.variables.values())
        has_floats = has_floats or any(is_of_floats(each.name) for each in flat.constraints)
        self.floats = Floats(flat) if has_floats else None
        self.cells: dict[str, Cell] = {}
        # The truths of each set's elements.
        self.sets: dict[str, dict[int, TruthCell]] = {}
        self._expressions: dict[str, Number | Truth | Element] = {}
        self._deep: dict[str, int] = {}
        self._titles = _titles(flat)
        self._values = symbolic.domains(flat)
        self._domains: dict[tuple[int, ...], Domain] = {}
        kept = {each.text for each in _kept(flat)}
        self._definitions = {
            name: each
            for name, each in _introduced(flat, kept)
            if not (flat.variables[name].is_set or flat.variables[name].is_float)
        }
        # The sets that are made of two others, and are no truths of their own.
        self._joined: dict[str, Members] = {}
        self._joins = {
            name: each
            for name, each in _introduced(flat, kept)
            if each.name in meaning.JOINS and each.args[-1] == Name(name)
        }
        self._done: set[int] = set()
        # How many tables have a cell for their row, and premises one that says if they hold.
        self._rows, self._blamed = 0, 0
        try:
            # (the program is told all of it at once)
            workbench.network.whole(lambda: self._state_all(flat))
        except RecursionError:
            raise NotSupported(0, "definitions lie too deep within one another") from None

    def _state_all(self, flat: Flat) -> None:
        sets = [variable for variable in flat.variables.values() if variable.is_set]
        for variable in sets:
            if variable.name not in self._joins:
                self._set(variable)
        for variable in flat.variables.values():
            if not variable.is_set and variable.name not in self._definitions:
                self._expression(variable.name)
        for variable in sets:
            if variable.value is not None:
                given, told = self.members(Name(variable.name)), self.members(variable.value)
                self._require(is_same(given, told))
        for variable in flat.variables.values():
            if variable.is_float and variable.value is not None:
                same = (Name(variable.name), variable.value)
                self._state(Constraint("float_eq", same, None, variable.line))
        for each in flat.constraints:
            if each.defined in self._definitions:
                self._expression(str(each.defined))
            if each.defined in self._joins:
                self._join(str(each.defined))
            if id(each) not in self._done:
                self._state(each)

    @property
    def own(self) -> list[Cell]:
        """The cells of the variables that MiniZinc didn't bring in, or prints: in these solutions
        differ."""
        printed = {each.text for each in _printed(self.flat)}
        variables = self.flat.variables.items()
        names = [name for name, it in variables if name in printed or not it.has(_INTRODUCED)]
        return [cell for name in names for cell in self.cells_of(name)]

    @property
    def told_apart_by(self) -> list[Cell]:
        """The same without floats: between any two there are others."""
        is_float = {n for n, it in self.flat.variables.items() if it.is_float}
        floats = {cell.name for name, cell in self.cells.items() if name in is_float}
        return [cell for cell in self.own if cell.name not in floats]

    @property
    def seeks_float(self) -> bool:
        """Whether the best value of a float is sought."""
        goal, variables = self.flat.goal.objective, self.flat.variables
        return isinstance(goal, Name) and goal.text in variables and variables[goal.text].is_float

    def better_than(self, value: int) -> tuple[Truth, Fraction | None]:
        """That the objective is better than a value, of a float by more than a margin, and that."""
        goal = self.flat.goal
        assert isinstance(goal.objective, Name)
        cell, margin, least = self.cells[goal.objective.text], None, 1
        assert isinstance(cell, NumberCell)
        if self.seeks_float and self.floats is not None:
            unit = self.floats.per_unit
            least = max(abs(value), unit) // _MARGIN + 1
            margin = Fraction(least, unit)
        is_less = goal.sort == "minimize"
        return (cell <= value - least if is_less else cell >= value + least), margin

    @property
    def count(self) -> int:
        """How many cells there are."""
        return len(self.cells) + sum(map(len, self.sets.values()))

    def cells_of(self, name: str) -> list[Cell]:
        """The cells of a variable: none where it is an expression, one, or those of a set."""
        if name in self.sets:
            return list(self.sets[name].values())
        return [self.cells[name]] if name in self.cells else []

    def read(self, plan: Plan) -> Callable[[str], Point | Fraction]:
        """What variables are in a plan: of a float the number itself, not its steps."""
        cells = [*self.cells.values(), *(it for each in self.sets.values() for it in each.values())]
        points = Points(
            {
                it.node.declared: str(plan[it.name])
                if isinstance(it, ElementCell)
                else plan[it.name]
                for it in cells
            }
        )

        def value(name: str) -> Point | Fraction:
            if not self.flat.variables[name].is_float:
                return value_of(self._expression(name).node, points)
            assert self.floats is not None
            fixed = self.floats.fixed(name)
            if fixed is not None:
                return fixed
            return Fraction(int(plan[self.cells[name].name]), self.floats.per_unit)

        return value

    # --- what terms stand for ---

    def number(self, term: FlatTerm) -> Number:
        """A number: a truth counts as 0 or 1, and an element is looked up."""
        found = self._value(term)
        if isinstance(found, Element):
            names = domain_of_element(found).elements
            return element(found, {name: int(name) for name in names})
        if isinstance(found, Truth):
            return constant(int(found.node is YES.node)) if _is_plain(found) else count([found])
        return found

    def truth(self, term: FlatTerm) -> Truth:
        """A truth: a number of 0 or 1 counts as one."""
        found = self._value(term)
        return found if isinstance(found, Truth) else self.number(term) >= 1

    def steps(self, name: str) -> Number:
        """How many steps a float is, which isn't fixed."""
        found = self._expression(name)
        assert isinstance(found, Number)
        return found

    def elements(self, term: FlatTerm) -> list[FlatTerm]:
        """The elements of an array, as they stand."""
        array = self.flat.resolved(term)
        assert isinstance(array, tuple), f"no array: {term!r}"
        return list(array)

    def numbers(self, term: FlatTerm) -> list[Number]:
        """An array of numbers."""
        return [self.number(each) for each in self.elements(term)]

    def truths(self, term: FlatTerm) -> list[Truth]:
        """An array of truths."""
        return [self.truth(each) for each in self.elements(term)]

    def constants(self, term: FlatTerm) -> list[int]:
        """An array of constants."""
        found = [self.flat.resolved(each) for each in self.elements(term)]
        return [int(each) for each in found if isinstance(each, int)]

    def told_apart(self, constraint: Constraint) -> Truth | None:
        """What a constraint says of variables that are elements; None where they are none."""
        compared = symbolic.compared(self.flat, constraint)
        if compared is None:
            return None
        elements = [each for term in compared for each in self._elements(term)]
        if len(elements) < len(compared) or not any(isinstance(each, Element) for each in elements):
            return None
        name = constraint.name.removesuffix("_reif")
        if name == TABLE:
            return self._is_row(elements, self.constants(constraint.args[1]))
        if name == "set_in":
            return self._is_in(elements[0], constraint.args[1])
        if name == "array_set_element":
            return self._is_set_at(elements[0], constraint)
        if name == "fzn_all_different_int":
            return differing(elements)
        first, second = sorted(elements, key=lambda each: isinstance(each, str))
        assert isinstance(first, Element)
        return first == second if name.endswith("eq") else first != second

    def _is_row(self, columns: list[Element | str], cells: list[int]) -> Truth | None:
        """That these are a row of a table: pairs of a relation, of more than two with the row; None
        where there are too many rows for that."""
        open_ones = [each for each in columns if isinstance(each, Element)]
        rows = [tuple(map(str, row)) for row in meaning.rows_of(cells, len(columns))]
        rows = [row for row in rows if all(map(_may_be, columns, row))]
        places = [place for place, each in enumerate(columns) if isinstance(each, Element)]
        kept = list(dict.fromkeys(tuple(row[place] for place in places) for row in rows))
        if not kept:
            return NO
        if len(open_ones) == 1:
            return open_ones[0].among(*(value for (value,) in kept))
        if len(open_ones) == 2:
            return pairs(open_ones[0], open_ones[1], [(one, other) for one, other in kept])
        if len(kept) > _MOST_ROWS:
            return None
        row = self._fresh_element(len(kept))
        return every(
            [
                pairs(row, column, [(str(n), values[place]) for n, values in enumerate(kept, 1)])
                for place, column in enumerate(open_ones)
            ]
        )

    def looked_up(self, index: FlatTerm, row: Sequence[int]) -> tuple[Number, Truth] | None:
        """The entry of a row by an index that is an element; None where it is none."""
        found = self.flat.resolved(index)
        made = self._value(found) if isinstance(found, Name) else None
        if not isinstance(made, Element):
            return None
        names = domain_of_element(made).elements
        is_there = {name: 1 <= int(name) <= len(row) for name in names}
        table = {name: row[int(name) - 1] if is_there[name] else 0 for name in names}
        return element(made, table), self._one_of(made, Numbers.span(1, len(row)))

    def fresh(self, high: int) -> Number:
        """A number from 1 on that no variable has."""
        self._rows += 1
        return self.workbench.number(f"row of table {self._rows}", 1, high)

    def _fresh_element(self, count: int) -> Element:
        self._rows += 1
        domain = self._domain(tuple(range(1, count + 1)))
        return self.workbench.element(f"row of table {self._rows}", domain)

    def _is_in(self, made: Element | str, term: FlatTerm) -> Truth:
        """That an element's number is in a set."""
        values = self.values(term)
        if values is not None:
            return self._one_of(made, values)
        held = self.members(term).truths.items()
        is_one = [every([self._one_of(made, Numbers.of([it])), truth]) for it, truth in held]
        return some(is_one)

    def _is_set_at(self, made: Element | str, constraint: Constraint) -> Truth:
        """That a set is the one of these constants whose place is an element's number."""
        _, given, told = constraint.args
        sets, member = self.sets_of(given), self.members(told)
        found = {
            element: self._one_of(made, places_of(element, sets)) for element in elements_of(sets)
        }
        is_place = self._one_of(made, Numbers.span(1, len(sets)))
        return every([is_place, is_same(Members(found), member)])

    def _elements(self, term: FlatTerm) -> list[Element | str]:
        """The element that a term stands for, as a list; an empty one where it is none."""
        found = self.flat.resolved(term)
        if isinstance(found, int):
            return [str(found)]
        value = self._value(found)
        return [value] if isinstance(value, Element) else []

    def _one_of(self, made: object, values: Numbers) -> Truth:
        assert isinstance(made, Element)
        names = domain_of_element(made).elements
        kept = [each for each in names if values.has(int(each))]
        return made.among(*kept) if kept else NO

    def values(self, term: FlatTerm) -> Numbers | None:
        """A constant set; None for a variable."""
        found = self.flat.resolved(term)
        return found if isinstance(found, Numbers) else None

    def members(self, term: FlatTerm) -> Members:
        """A set."""
        values = self.values(term)
        if values is not None:
            return Members.of(values)
        found = self.flat.resolved(term)
        assert isinstance(found, Name), f"no set: {term!r}"
        if found.text in self._joins:
            self._join(found.text)
        if found.text in self._joined:
            return self._joined[found.text]
        if found.text not in self.sets:
            self._set(self.flat.variables[found.text])
        return Members(self.sets[found.text])

    def _join(self, name: str) -> None:
        """Has a set be what it is made of, unless that is made of it, or lies too deep."""
        definition, values = self._joins.pop(name), self.flat.variables[name].values
        one, other = (self.members(each) for each in definition.args[:2])
        names = {each.text for each in _names_in(definition.args[:2], self.flat)}
        deep = 1 + max((self._deep.get(each, 0) for each in names), default=0)
        if name in self.sets or deep > _DEEPEST:
            return
        assert values is not None
        self._joined[name] = made = meaning.JOINS[definition.name](one, other)
        self._deep[name] = deep
        self._done.add(id(definition))
        self._require(every([~held for it, held in made.truths.items() if not values.has(it)]))

    def sets_of(self, term: FlatTerm) -> list[Members]:
        """An array of sets."""
        return [self.members(each) for each in self.elements(term)]

    def _value(self, term: FlatTerm) -> Number | Truth | Element:
        found = self.flat.resolved(term)
        if isinstance(found, bool):
            return YES if found else NO
        if isinstance(found, int):
            return constant(found)
        if isinstance(found, Name) and found.text in self.flat.variables:
            return self._expression(found.text)
        raise NotSupported(0, "a variable or a constant is wanted")

    # --- variables ---

    def _expression(self, name: str) -> Number | Truth | Element:
        """What a variable is: its cell, or what it is defined as."""
        if name not in self._expressions:
            made = self._defined(name) if name in self._definitions else None
            if name not in self._expressions:
                self._expressions[name] = self._cell(name) if made is None else made
        return self._expressions[name]

    def _defined(self, name: str) -> Number | Truth | None:
        """What a variable is defined as, None where it is to be a cell."""
        definition = self._definitions.pop(name)
        found = meaning.defined(self, definition)
        names = {each.text for each in _names_in(definition.args, self.flat)}
        deep = 1 + max(self._deep.get(each, 0) for each in names)
        if found is None or deep > _DEEPEST or name in self._expressions:
            return None
        value, beside = found
        self._deep[name] = deep
        self._done.add(id(definition))
        self._require(every([beside, self._is_possible(self.flat.variables[name], value)]))
        return value

    def _cell(self, name: str) -> Number | Truth | Element:
        """A cell for a variable, with what its declaration says of it."""
        variable = self.flat.variables[name]
        title = self._titles.get(name, name)
        made: NumberCell | TruthCell | ElementCell
        if variable.is_truth:
            made = self.workbench.truth(title)
        elif variable.is_float:
            return self._float(variable, title)
        elif name in self._values:
            made = self.workbench.element(title, self._domain(self._values[name]))
        elif variable.values is not None and not variable.values.ranges:
            # (no number is possible)
            made = self.workbench.number(title, 0, 0)
            self._require(NO)
        else:
            ranges = variable.values.ranges if variable.values else ((None, None),)
            made = self.workbench.number(title, ranges[0][0], ranges[-1][1])
        self.cells[name] = made
        self._expressions[name] = made
        self._require(self._is_possible(variable, made))
        return made

    def _float(self, variable: Variable, title: str) -> Number:
        """A cell for the steps of a float; a constant, where it is fixed."""
        assert self.floats is not None
        low, high = self.floats.ends(variable.name)
        if self.floats.fixed(variable.name) is not None:
            return constant(low)
        made = self.workbench.number(title, low, max(low, high))
        if low > high:
            self._require(NO)
        self.cells[variable.name] = made
        return made

    def _set(self, variable: Variable) -> None:
        """A truth for each element that a set may have."""
        title = self._titles.get(variable.name, variable.name)
        assert variable.values is not None
        self.sets[variable.name] = {
            element: self.workbench.truth(f"{element} in {title}")
            for element in variable.values.each()
        }

    def _domain(self, values: tuple[int, ...]) -> Domain:
        """The domain of these numbers, the same each time."""
        if values not in self._domains:
            title = f"numbers {len(self._domains) + 1}"
            self._domains[values] = self.workbench.domain(title, map(str, values))
        return self._domains[values]

    def _is_possible(self, variable: Variable, made: Number | Truth | Element) -> Truth:
        """What a variable's declaration says of its value."""
        if isinstance(made, Element):
            assert variable.values is not None
            return self._one_of(made, variable.values)
        said = []
        if isinstance(made, Number) and variable.values is not None and variable.values.ranges:
            said.append(within(made, variable.values))
        if variable.value is not None and isinstance(made, Number):
            said.append(made == self.number(variable.value))
        elif variable.value is not None and isinstance(made, Truth):
            said.append(same_truth(made, self.truth(variable.value)))
        return every(said)

    # --- constraints ---

    def _state(self, constraint: Constraint) -> None:
        if constraint.name == BLAMED:
            holds, label = constraint.args
            assert isinstance(label, Text)
            self._believe(self.truth(holds), label.text)
        elif self.floats is not None and is_of_floats(constraint.name):
            said = self.floats.said(self, constraint)
            self._require(said.loose)
            if said.exact.node is not said.loose.node:
                self._require(said.exact, EXACT)
        else:
            self._require(meaning.stated(self, constraint))

    def _believe(self, truth: Truth, label: str) -> None:
        """States a constraint of the model by its label: of two numbers, or one of several, by a
        cell that always says whether it holds, as a premise of one line is soon looked at."""
        told = denied(truth.node)
        alone, holds = (truth.node, True) if told is None else (told, False)
        if not _is_told_of_a_cell(alone, holds) or not is_harmless(alone):
            self._require(truth, label)
            return
        self._blamed += 1
        cell = self.workbench.truth(f"premise {self._blamed} holds")
        self._require(cell == Truth(alone))
        self.workbench.tell(label, cell, holds)

    def _require(self, truth: Truth, under: str | None = None) -> None:
        if truth.node is not YES.node or under is not None:
            self.workbench.require(truth, under=under)


def _is_told_of_a_cell(each: Node, holds: bool) -> bool:
    """Whether what is stated or denied is told of a cell of its own: one of several, or how two
    numbers compare. (With a constant it is told of the number.)"""
    if each.op is Op.LESS:
        return all(it.op is not Op.CONSTANT for it in each.args)
    return each.op is (Op.OR if holds else Op.AND)


def _may_be(column: Element | str, value: str) -> bool:
    """Whether a column may have a value at all."""
    if isinstance(column, str):
        return column == value
    return value in domain_of_element(column).elements


def _is_plain(truth: Truth) -> bool:
    return truth.node in (YES.node, NO.node)


def _printed(flat: Flat) -> Iterable[Name]:
    """The variables that are printed."""
    for variable in flat.variables.values():
        if variable.has("output_var"):
            yield Name(variable.name)
    for array in flat.arrays.values():
        if array.printed is not None:
            yield from _names_in(array.elements)


def _kept(flat: Flat) -> Iterable[Name]:
    """The variables that have to be cells: those that are printed, sought, or tried out first."""
    yield from _printed(flat)
    if flat.goal.objective is not None:
        yield from _names_in((flat.goal.objective,))
    for each in flat.goal.annotations:
        yield from _names_in((each,), flat)


def _introduced(flat: Flat, kept: Container[str]) -> Iterable[tuple[str, Constraint]]:
    """The variables that MiniZinc brought in and that needn't be cells, and what defines them."""
    for each in flat.constraints:
        name = each.defined
        if name in flat.variables and flat.variables[name].has(_INTRODUCED) and name not in kept:
            yield name, each


def _names_in(terms: Iterable[FlatTerm], flat: Flat | None = None) -> Iterable[Name]:
    for term in terms:
        found = flat.resolved(term) if flat else term
        if isinstance(found, Name):
            yield found
        elif isinstance(found, tuple):
            yield from _names_in(found, flat)
        elif isinstance(found, Call):
            yield from _names_in(found.args, flat)


def _titles(flat: Flat) -> dict[str, str]:
    """What variables are called in the model: elements of a printed array by their places."""
    found: dict[str, str] = {}
    for array in flat.arrays.values():
        if array.printed is not None:
            for place, element in zip(_places(array.printed), array.elements):
                if isinstance(element, Name) and flat.variables[element.text].name.startswith("X_"):
                    found.setdefault(element.text, f"{array.name}[{place}]")
    return found


def _places(sets: tuple[Numbers, ...]) -> list[str]:
    """The indices of an array over these sets, in order."""
    found = [""]
    for each in sets:
        values = [value for low, high in each.ranges for value in range(low, high + 1)]
        found = [
            f"{before},{value}" if before else str(value) for before in found for value in values
        ]
    return found
