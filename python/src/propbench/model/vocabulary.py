"""What a user calls things, and how that is written on lines and read from replies."""

from collections.abc import Callable

from propbench.model.kinds import Domain, Kind, Plain, Point
from propbench.model.naming import LineNames

_PLAIN = {Plain.NUMBER: "span", Plain.TRUTH: "truth", Plain.SYMBOL: "symbol"}
# Whether an expression over elements is one of some: the workbench's own domain.
INSIDE = Domain("_side", ("in", "out"))


class Vocabulary:
    """The names of a workbench's cells, premises and choices, domains, elements and symbols."""

    def __init__(self, is_taken_as_name: Callable[[str], bool]) -> None:
        self._is_taken_as_name = is_taken_as_name
        self.cells = LineNames(is_taken_as_name)
        self.premises = LineNames(is_taken_as_name)
        self.domains = LineNames(is_taken_as_name)
        self.symbols = LineNames(is_taken_as_name)
        self._elements: dict[Domain, LineNames] = {}
        self._own: dict[tuple[str, ...], Domain] = {INSIDE.elements: INSIDE}

    def elements(self, domain: Domain) -> LineNames:
        """The names of a domain's elements."""
        if domain not in self._elements:
            names = self._elements[domain] = LineNames(self._is_taken_as_name)
            for element in domain.elements:
                names.line(element)
        return self._elements[domain]

    def own_domain(self, name: str, elements: tuple[str, ...]) -> Domain:
        """A domain that the user doesn't see, the same each time."""
        return self._own.setdefault(elements, Domain(name, elements))

    def domain(self, domain: Domain) -> str:
        """A domain's name on a line."""
        is_own = self._own.get(domain.elements) is domain
        return domain.name if is_own else self.domains.line(domain.name)

    def kind(self, kind: Kind) -> str:
        """A kind as `cell` takes it."""
        return self.domain(kind) if isinstance(kind, Domain) else _PLAIN[kind]

    def literal(self, value: Point, kind: Kind) -> str:
        """A value as a line states it."""
        if kind is Plain.TRUTH:
            return "yes" if value else "no"
        if kind is Plain.SYMBOL:
            return self.symbols.line(str(value))
        if isinstance(kind, Domain):
            return self.elements(kind).line(str(value))
        return str(value)

    def some(self, elements: tuple[str, ...], domain: Domain) -> str:
        """Some elements of a domain as a line states them."""
        names = self.elements(domain)
        return "{" + " ".join(map(names.line, elements)) + "}"
