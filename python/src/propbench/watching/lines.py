"""The network that a session's lines make: read from the lines that were carried out.

A compound is taken apart by its definition, where that is known: it was defined on a line, or
stands in the kit's prelude. What others make, as the compounds of propwide, the program lists.
"""

from collections.abc import Callable, Mapping, Sequence
from dataclasses import replace

from propbench.grammar import Role, parsed
from propbench.kit import KIT
from propbench.known import Known
from propbench.listing import CellStatement, ToldLines
from propbench.replies import Instance, Listing
from propbench.watching.network import CellSeen, ChoiceSeen, NetworkSeen, Premise, StatedSeen, Use


class SessionLines:
    """The lines of a session, read as they come."""

    def __init__(self, listing: Callable[[float | None], Listing | None]) -> None:
        """Of a session of which the program lists what there is, where it does."""
        self._listing = listing
        self._begin()

    def _begin(self) -> None:
        self._read: list[str] = []
        self._told = ToldLines()
        self._uses: list[Use] = []

    def take(self, lines: Sequence[str], known: Known, until: float | None = None) -> None:
        """Takes in the lines of a session, of which those that are known are not read again. Raises
        OutOfTime; what cuts it short has all be read again."""
        if self._read != lines[: len(self._read)]:
            self._begin()
        try:
            self._take(lines, known, until)
        except BaseException:
            self._begin()
            raise

    def _take(self, lines: Sequence[str], known: Known, until: float | None) -> None:
        parts: _Parts | None = None
        for line in lines[len(self._read) :]:
            self._told.learn(line)
            if line.split(None, 1)[0] == "attach":
                parts = parts or _Parts(lambda: self._listing(until), known)
                self._uses.append(parts.attached(line, str(len(self._uses) + 1)))
        self._read = list(lines)

    @property
    def told(self) -> ToldLines:
        """What was told."""
        return self._told

    @property
    def uses(self) -> Sequence[Use]:
        """The uses, in the order in which they were attached."""
        return self._uses

    def network(self, known: Known) -> NetworkSeen:
        """The network as it is now."""
        told = self._told
        return NetworkSeen(
            tuple(CellSeen(name, name, kind) for name, kind in known.cells.items()),
            tuple(self._uses),
            tuple(
                Premise(name, name, _said(stated), name not in told.kicked)
                for name, stated in told.premises.items()
                if name
            ),
            tuple(
                ChoiceSeen(name, name, tuple(map(str, sides)), (sides[0].cell,))
                for name, sides in told.choices.items()
            ),
            _said(told.premises.get("", ())),
        )


def _said(stated: Sequence[CellStatement]) -> tuple[StatedSeen, ...]:
    return tuple(StatedSeen(str(each), each.cell) for each in stated)


class _Parts:
    """What uses are made of. The kind of each cell is kept by its name."""

    def __init__(self, listing: Callable[[], Listing | None], known: Known) -> None:
        self._listing = listing
        self._definitions, self._kinds = known.definitions, dict(known.cells)
        # The instances that are listed, by the `attach` that made them.
        self._made: dict[str, list[Instance]] | None = None

    def attached(self, line: str, name: str) -> Use:
        """The use that a line attaches."""
        parse = parsed(line)
        [procedure] = parse.of(Role.PROCEDURE)
        cells = tuple(token.text for token in parse.of(Role.CELL))
        given = "".join(token.text for token in parse.of(Role.GIVEN))
        return self._use(name, procedure.text, cells, given)

    def _use(self, name: str, procedure: str, cells: tuple[str, ...], given: str) -> Use:
        """A use, taken apart. What is of the kit works one way."""
        made = Use(name, procedure, cells, given, one_way=procedure in KIT)
        definition = self._definitions.get(procedure)
        if definition is None:
            return made if made.one_way else self._told(made)
        inner: dict[str, str] = dict(zip(definition.parameters, cells))
        own: dict[str, CellSeen] = {}
        parts: list[Use] = []
        for step in definition.steps:
            if step.procedure:
                passed = given if step.given == "*" else step.given
                on = tuple(inner[each] for each in step.cells)
                parts.append(self._use(f"{name}.{len(parts) + 1}", step.procedure, on, passed))
            else:
                [local] = step.cells
                inner[local] = f"{name}.{local}"
                kind = step.kind or self._kinds[inner[step.like]]
                self._kinds[inner[local]] = kind
                own[local] = CellSeen(inner[local], local, kind)
        return replace(made, parts=tuple(parts), locals=tuple(own.values()))

    def _told(self, made: Use) -> Use:
        """A use with what is listed of it; a procedure makes itself."""
        begin = f"{made.name}."
        listed = self._listed().get(begin.partition(".")[0], ())
        if any(each.part == made.name for each in listed):
            return replace(made, one_way=True)
        own: dict[str, CellSeen] = {}
        parts: list[Use] = []
        for each in listed:
            if each.part.startswith(begin):
                cells = (*each.inputs, each.output)
                fresh = (cell for cell in cells if cell not in made.cells)
                own.update(
                    {it: CellSeen(it, it.removeprefix(begin), self._kinds[it]) for it in fresh}
                )
                parts.append(Use(each.part, each.procedure, cells, each.given, one_way=True))
        return replace(made, parts=tuple(parts), locals=tuple(own.values()))

    def _listed(self) -> Mapping[str, Sequence[Instance]]:
        """The instances by the number of the `attach` that made them."""
        if self._made is None:
            self._made = {}
            listing = self._listing()
            self._kinds.update(listing.cells if listing else ())
            for each in listing.instances if listing else ():
                self._made.setdefault(each.part.partition(".")[0], []).append(each)
        return self._made
