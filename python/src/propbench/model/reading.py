"""Replies, read as answers in the user's words."""

from collections.abc import Iterable, Mapping

from propbench.model.answers import Answer, Left, numbers_left
from propbench.model.choosing import alternative_of, alternatives_at, first_name
from propbench.model.kinds import Domain
from propbench.model.measured import MeasuredAnswer, interval_of
from propbench.model.measures import Interval, Measure
from propbench.model.nodes import Declared
from propbench.model.premises import PremisesInOrder
from propbench.model.vocabulary import Vocabulary
from propbench.replies import Value
from propbench.showing import printable
from propbench.values import Elements, Held, Impossible, Nothing, Span, Symbol
from propbench.words import MOST_NUMBER


class Reader:
    """Reads replies of a workbench's program."""

    def __init__(self, vocabulary: Vocabulary, premises: PremisesInOrder) -> None:
        self._vocabulary = vocabulary
        self._premises = premises

    def answer(self, cell: Declared, reply: Value, plan: Mapping[str, int]) -> Answer:
        """A reply about a cell, under the plan on which the choices stand."""
        ends = None if self._premises.choices or cell.measure else reply.ends()
        if ends:
            least, most, rests_on = ends
            return Answer(
                cell.name,
                least if least == most else Span(least, most),
                None if least == -MOST_NUMBER else least,
                None if most == MOST_NUMBER else most,
                True,
                self._vocabulary.premises.texts(rests_on),
            )
        _, held, settled, named, reduced = reply.all()
        names = named or ()
        if self._premises.choices:
            # (two sides may stand for one alternative)
            because = tuple(dict.fromkeys(self.premise(each, plan) for each in names))
        else:
            because = self._vocabulary.premises.texts(names)
        choices = self.choices(plan) if plan else {}
        if cell.measure is not None:
            return self._measured(cell, cell.measure, reply.read(), because, choices)
        value: Left
        if isinstance(held, Span):
            value, low, high = numbers_left(held)
        else:
            value, low, high = self._value(cell, held), None, None
        return Answer(cell.name, value, low, high, settled, because, choices, reduced)

    def _measured(
        self,
        cell: Declared,
        measure: Measure,
        reply: Value,
        because: tuple[str, ...],
        choices: Mapping[str, object],
    ) -> Answer:
        """A reply about a quantity, in its unit. What its own readings say that count, it says."""
        readings = [read for name in because for read in self._premises.readings(name)]
        coverage = {
            str(read.premise): read.reading.coverage
            for read in readings
            if read.reading.coverage is not None
        }
        left: Left = Nothing()
        if isinstance(reply.value, Span):
            known = [(it.reading.low, it.reading.high) for it in readings if it.cell is cell]
            ends = [(measure.low, measure.high), *known, *self._premises.readings_of(cell)]
            left = interval_of(measure, reply.value.low, reply.value.high, ends)
        elif isinstance(reply.value, Impossible):
            left = reply.value
        low, high = (left.low, left.high) if isinstance(left, Interval) else (None, None)
        told = (cell.name, left, low, high, reply.settled, because, choices, reply.reduced)
        return MeasuredAnswer(*told, coverage)

    def premise(self, line_name: str, plan: Mapping[str, int]) -> str:
        """What the user calls a premise, or the alternative of a choice (`venue: uni`) on which a
        plan stands."""
        choice, mark, number = line_name.partition("=")
        name = self._vocabulary.premises.text(first_name(choice))
        if not mark:
            return name
        sides = self._premises.choices[name].sides
        left = alternatives_at(choice, int(number) - 1, len(sides))
        if plan.get(name) in left:
            left = [plan[name]]
        return f"{printable(name)}: {' or '.join(sides[each] for each in left)}"

    def plan(self, inside: Iterable[str]) -> dict[str, int]:
        """For each choice the place of the alternative that it stands on, by the sides that are
        believed."""
        sides: dict[str, list[int]] = {}
        for line_name in inside:
            choice, mark, number = line_name.partition("=")
            if mark:
                name = self._vocabulary.premises.text(first_name(choice))
                sides.setdefault(name, []).append(int(number) - 1)
        return {name: alternative_of(found) for name, found in sides.items()}

    def choices(self, plan: Mapping[str, int]) -> dict[str, object]:
        """For each choice what it stands on, as it was written."""
        return {name: self._premises.choices[name].stands_on(at) for name, at in plan.items()}

    def _value(self, cell: Declared, held: Held) -> Left:
        """What is left for a cell that is not for numbers."""
        if isinstance(held, Symbol):
            return self._vocabulary.symbols.text(held.name)
        if not isinstance(held, Elements):
            return held
        if not isinstance(cell.kind, Domain):
            return held.names == ("yes",) if len(held.names) == 1 else held
        names = self._vocabulary.elements(cell.kind)
        elements = tuple(map(names.text, held.names))
        return elements[0] if len(elements) == 1 else Elements(elements)
