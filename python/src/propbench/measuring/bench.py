"""What a workbench does with measured quantities: it has these methods."""

from collections.abc import Iterable, Mapping, Sequence
from contextlib import suppress

from propbench.measuring.apart import left_apart
from propbench.measuring.bends import Bend
from propbench.measuring.devices import (
    Device,
    corrected,
    devices_in,
    errors_of,
    made,
    shown,
    shown_in,
    told_if_possible,
)
from propbench.measuring.elementary import Calibration
from propbench.measuring.exact import Exact
from propbench.measuring.law_texts import laws_of
from propbench.measuring.outliers import Outliers, find_outliers
from propbench.measuring.polynomials import Polynomial
from propbench.measuring.predict import Prediction, expected, predicted
from propbench.measuring.quantities import MeasuredAnswer, Quantity, measure_of, measured
from propbench.measuring.readings import COVERAGE, GivenReading, reading_of
from propbench.measuring.refining import SHAVED, Sharp, Sharpening
from propbench.measuring.rooms import GapSeen, find_room
from propbench.measuring.sensitivity import Improvements, find_improvements
from propbench.measuring.shaving import Shaved, find_shaved
from propbench.measuring.stating import (
    BendTold,
    LawTold,
    RootMade,
    StatedLaw,
    declared,
    quantities_in,
    read,
    stated,
    told_pieces,
)
from propbench.measuring.terms import Law, Real, text_of
from propbench.measuring.units import unit_of
from propbench.measuring.zeros import check_zeros
from propbench.model.answers import Answer, Conflict
from propbench.model.cells import Cell
from propbench.model.events import CellMade, Event, LawStated, Read
from propbench.model.measures import Measure
from propbench.model.network import Network
from propbench.model.nodes import Declared, cells_in
from propbench.model.reading import Reader
from propbench.program import OutOfTime
from propbench.questions import Questions
from propbench.questions.clock import Clock, Progress
from propbench.questions.rooms import NumberRoom
from propbench.replies import Contradiction, Settled, Value
from propbench.values import Span

# How often pieces of curves are halved for readings that are in conflict.
_APART = 5


class Measuring(Questions):
    """The quantities of a workbench, laws between them, readings of them, and what follows."""

    _network: Network
    _owner: object
    # Whether a law was stated in which a function stands.
    _has_bends: bool = False
    # For what the pieces of curves are as fine as need be.
    _sharp: Sharp | None = None

    # --- what is stated ---

    def measured(
        self,
        name: str,
        unit: str = "1",
        low: Exact | str | None = None,
        high: Exact | str | None = None,
        step: Exact | str | None = None,
    ) -> Quantity:
        """A quantity: a real number from `low` to `high` in a unit. It is told to its `step`, in
        the unit; where that leaves room for it the cell counts finer steps.

        Raises UnknownUnit, and ValueError where an end is missing, or a cell can't count that.

        >>> w = Workbench()
        >>> height = w.measured("height", "m", 0, 100, step="0.01")
        >>> w.fix(height, "12 m +- 50 cm")
        >>> print(height.ask())
        height = 11.5..12.5 m
        """
        if low is None or high is None:
            raise ValueError(
                f"{name!r} needs low= and high=: between these it lies for sure, however wide"
                " they are"
            )
        measure = measure_of(name, unit_of(unit), low, high, step)
        self._check_name(name)
        return self._quantity(declared(name, measure, self._owner))

    def law(
        self, law: Law | str, under: str | None = None, *, curves: Iterable[Calibration] = ()
    ) -> None:
        """States that a law holds, always or under a premise. It may be a text, as one writes it:
        `w.law("density == mass / volume")`; the curves that stand in it are given beside it.

        No real solution is lost: whichever real numbers fit the law and the readings lie in the
        answers. Raises ValueError where a term has no bound, or a step is too coarse for the law,
        MixedUnits where a temperature is compared with a difference of two, and NotALaw for a text.

        >>> w = Workbench()
        >>> u, i = w.measured("u", "V", 0, 100), w.measured("i", "mA", 0, 100)
        >>> r = w.measured("r", "ohm", 0, 10000)
        >>> w.law(u == r * i)
        >>> w.read("meter", u, "10 V +- 0.1 V")
        >>> w.read("clamp", i, "20 mA")
        >>> print(r.ask())
        r = 482.92..517.95 ohm because of meter, clamp
        """
        if isinstance(law, str):
            laws = laws_of(law, self._quantities(), curves)

            def state() -> None:
                for each in laws:
                    self.law(each, under)

            return self._network.whole(state)
        if not isinstance(law, Law):
            raise TypeError(f"{law!r} is no law of measured quantities: `w.require` states others")
        if under is not None:
            self._network.premises.check(under)
        self._check_there(quantities_in(law))
        roots = _Roots(self)
        try:
            check_zeros(law)
            found, defined = stated(law, self._equations(under), under, roots)
            corrections = [
                event
                for device in self.devices.values()
                for event in self._corrections(device, [found], roots)
            ]
        except RecursionError:
            raise ValueError("a law is nested too deeply: name parts of it by quantities") from None
        self._has_bends = self._has_bends or bool(defined.bends)
        self._network.do(
            *roots.events,
            LawTold(found.constraint, under, law.text, found),
            *(LawStated(each.constraint, under, each.law.text) for each in defined.laws),
            *self._new_pieces(defined.bends, under),
            *corrections,
        )

    def device(
        self,
        name: str,
        offset: Exact | str | None = None,
        scale: Exact | str | None = None,
    ) -> Device:
        """A device whose readings share its errors: what is measured is what it shows, times one
        more than its scale error (`"0.1 %"`), and its offset error beside (`"0.02 mm"`). That these
        are as small as that is stated under a premise of the device's name.

        Raises NoReading, UnknownUnit, and ValueError for a name that is taken.

        >>> w = Workbench()
        >>> height = w.measured("height", "m", 0, 100, step="0.1")
        >>> tape = w.device("tape", offset="0.2 m")
        >>> w.read("morning", height, "12.0 m +- 0.1 m", by=tape)
        >>> height.ask().low <= 11.7, height.ask().high >= 12.3
        (True, True)
        """
        self._network.premises.check(name)
        if name in self._network.premises.believed:
            raise ValueError(f"there is a premise of this name, which a device's has: {name!r}")
        errors = errors_of(name, offset, scale)
        roots = _Roots(self)
        events = made(name, errors, self._owner, roots)
        for each in events:
            if isinstance(each, CellMade):
                self._check_name(each.cell.name)
        self._network.do(*events)
        return self.devices[name]

    @property
    def devices(self) -> Mapping[str, Device]:
        """The devices by name.

        >>> w = Workbench()
        >>> height = w.measured("height", "m", 0, 100, step="0.1")
        >>> tape = w.device("tape", offset="0.2 m")
        >>> list(w.devices)
        ['tape']
        """
        return devices_in(self._network.events)

    def read(
        self,
        premise: str,
        quantity: Quantity,
        reading: GivenReading | list[GivenReading],
        *,
        coverage: Exact = COVERAGE,
        by: Device | None = None,
    ) -> None:
        """States under a premise what was read of a quantity: a text as `468.0 +- 1.2 ohm`,
        `470 ohm +- 5%`, `330..345`, `468.0(47) ohm` or `468.0 ohm u=4.7`; an exact number, or the
        two ends of an interval. A tolerance may have parts: `12.34 V +- (0.5 % + 2 digits)`.

        A list are readings that were repeated, under `PREMISE 1`, `PREMISE 2` and so on. What was
        read `by` a device is what it shows, with its own errors beside.

        What isn't understood to its end is refused, and nothing is stated then. A standard
        uncertainty (in brackets, or behind `u=`) counts `coverage` times as a bound.
        Raises NoReading, UnknownUnit and MixedUnits, which are ValueErrors.

        >>> w = Workbench()
        >>> height = w.measured("height", "m", 0, 100, step="0.01")
        >>> w.read("tape", height, "12.0 m +- 0.5 m")
        >>> answer = height.ask()
        >>> print(answer.low, answer.high, answer.because)
        11.5 12.5 ('tape',)
        """
        if not isinstance(quantity, Quantity):
            raise TypeError(f"`{quantity!r}` is no measured quantity")
        if isinstance(reading, list):
            if not reading:
                raise ValueError(f"of {quantity.name!r} nothing was read: the list is empty")
            several = [(f"{premise} {place}", each) for place, each in enumerate(reading, 1)]
        else:
            several = [(premise, reading)]
        for name, _ in several:
            self._network.premises.check(name)
        cell = self._own(quantity)
        found = [(name, reading_of(each, quantity.unit, coverage)) for name, each in several]

        def state() -> None:
            shows = cell if by is None else self._shown_by(by, cell)
            self._network.do(*(read(shows, each, name) for name, each in found))

        self._network.whole(state)

    # --- questions ---

    def shave(
        self,
        quantity: Quantity,
        *,
        seconds: float | None = None,
        progress: Progress | None = None,
    ) -> Shaved:
        """What follows for a quantity, as narrow as is found by telling its ends, in cases of other
        quantities too: what the program contradicts is taken off, until nothing more can be, or
        `seconds` are over.

        Raises Conflict where what is believed can't all hold.

        >>> w = Workbench()
        >>> side, area = w.measured("side", "m", 0, 10), w.measured("area", "m^2", 0, 100)
        >>> w.law(area == side * side)
        >>> w.read("plan", area, "25 m^2")
        >>> answer = w.shave(side)
        >>> answer.low <= 5 <= answer.high
        True
        """
        clock = Clock(seconds, None)
        self._sharpen([self._own(quantity)], clock, SHAVED)
        return find_shaved(self, quantity, clock.seconds_left(), progress)

    def outliers(
        self,
        *,
        most: int = 20,
        seconds: float | None = None,
        progress: Progress | None = None,
    ) -> Outliers:
        """The minimal sets of readings to give up so that nothing speaks against the others, `most`
        of them at the most: the fewest first, and of as many those that are off by more.

        >>> w = Workbench()
        >>> height = w.measured("height", "m", 0, 100)
        >>> w.read("tape", height, "12 m +- 1 m")
        >>> w.read("laser", height, "12.5 m +- 0.1 m")
        >>> w.read("guess", height, "20 m +- 1 m")
        >>> [each.names for each in w.outliers()]
        [('guess',), ('tape', 'laser')]
        """
        clock = Clock(seconds, None)
        with suppress(OutOfTime):
            self._sharpen_apart(clock)
        measured_cells = [name for name, it in self._network.cells.items() if it.measure]
        readings = self._readings()
        ordered = {name: readings[name] for name in self._suspects_first(list(readings))}
        return find_outliers(
            self.model,
            ordered,
            self._unread_first(measured_cells),
            most,
            Clock(clock.seconds_left(), progress),
        )

    def improvements(
        self,
        quantity: Quantity,
        *,
        seconds: float | None = None,
        progress: Progress | None = None,
    ) -> Improvements:
        """Which reading to improve: how wide a quantity's answer is where a reading's tolerance is
        halved, and without the reading. `w.sensitivity(quantity)` is the same.

        >>> w = Workbench()
        >>> height = w.measured("height", "m", 0, 100)
        >>> w.read("tape", height, "12 m +- 1 m")
        >>> w.read("laser", height, "12.5 m +- 0.1 m")
        >>> for reading, says, halved, left_out in w.improvements(height).rows():
        ...     print(reading, halved, left_out)
        tape 0.1 0.2
        laser 0.1 2
        """
        self._own(quantity)
        return find_improvements(self.model, quantity, self._readings(), seconds, progress)

    def predict(
        self,
        quantity: Quantity,
        tolerance: str | Exact | None = None,
        *,
        seconds: float | None = None,
        progress: Progress | None = None,
    ) -> Prediction:
        """What a further reading of a quantity would have to show, by a tolerance as `+- 0.5 ohm`
        or `2 % + 1 ohm`, so that it doesn't speak against what is believed. Shares are of what it
        shows. Raises NoReading, UnknownUnit and MixedUnits.

        >>> w = Workbench()
        >>> height = w.measured("height", "m", 0, 100, step="0.1")
        >>> w.read("tape", height, "12 m +- 1 m")
        >>> print(w.predict(height, "+- 0.5 m").shows)
        10.5..13.5 m
        """
        self._own(quantity)
        by = expected(tolerance, quantity.unit)
        left = self.shave(quantity, seconds=seconds, progress=progress)
        return predicted(quantity, left, by)

    def room(self, law: Law) -> GapSeen:
        """What a law that was stated costs in width, since whole numbers stand for the reals.

        Raises ValueError for a law that was not stated.

        >>> w = Workbench()
        >>> side, area = w.measured("side", "m", 0, 10), w.measured("area", "m^2", 0, 100)
        >>> law = area == side * side
        >>> w.law(law)
        >>> sorted(w.room(law).widths)
        ['area', 'side']
        """
        told = [it for it in self._laws() if it.law == law]
        if not told:
            raise ValueError(f"`{law!r}` was not stated")
        return find_room(self.model, told[-1])

    # --- within ---

    def _sharpen(self, cells: Iterable[Declared], clock: Clock, parts: int = 0) -> None:
        """Tells curves of functions by finer pieces where what is believed leaves the quantities
        that these cells hang on, in so many parts too, as long as that narrows answers and there is
        time."""
        if not self._has_bends:
            return
        wanted, record = list(cells), self._network.record
        if self._sharp and self._sharp.covers(record, wanted, parts):
            return
        # (there is to be time for the question itself)
        left_over = clock.seconds_left()
        clock = Clock(left_over if left_over is None else left_over / 2, None)
        tied = self._tied(wanted)
        believed = self._network.premises.in_force
        sharpening = Sharpening.of(self._network.events, tied, believed, parts)
        while sharpening.pieces and not clock.is_over():
            try:
                left = self._left_for(sharpening.cells, clock)
            except OutOfTime:
                return
            if not left:
                return
            finer = sharpening.finer(left)
            if not finer or not self._has_room_for(finer):
                self._sharp = Sharp(self._network.record, frozenset(tied), parts)
                return

    def _sharpen_apart(self, clock: Clock) -> None:
        """The same where readings are in conflict, for what is left without each of them."""
        for _ in range(_APART if self._has_bends else 0):
            told = []
            for left in left_apart(self.model, clock):
                cells = self._network.cells
                rooms = {
                    it: left.get(name) or _whole(it) for name, it in cells.items() if it.measure
                }
                in_force = self._network.premises.in_force
                sharpening = Sharpening.of(self._network.events, rooms, in_force, 0)
                finer = sharpening.finer(rooms)
                told += finer if self._has_room_for(finer) else []
            if not told:
                return

    def _has_room_for(self, pieces: Sequence[BendTold]) -> bool:
        """Whether the program has room for pieces of curves; then they are told."""
        try:
            self._network.do(*pieces)
        except ValueError:
            return False
        return True

    def _left_for(self, cells: Sequence[Declared], clock: Clock) -> dict[Declared, NumberRoom]:
        """What is left for cells; nothing where that isn't settled, or there is a conflict."""
        session, names = self._network.session, self._network.vocabulary.cells
        if not isinstance(session.send("settle", seconds=clock.seconds_left()), Settled):
            return {}
        asks = [f"ask {names.line(cell.name)}" for cell in cells]
        found: dict[Declared, NumberRoom] = {}
        for cell, reply in zip(cells, session.look(asks, until=clock.last)):
            held = reply.value if isinstance(reply, Value) else None
            found[cell] = (
                NumberRoom(held.low, held.high) if isinstance(held, Span) else _whole(cell)
            )
        return found

    def _related(self, cell: Declared) -> list[str]:
        """The quantities that laws tie to this one, by name, those without readings in front."""
        found = self._tied([cell])
        return self._unread_first(
            [cell.name for cell in self._network.cells.values() if cell in found]
        )

    def _tied(self, cells: Iterable[Declared]) -> set[Declared]:
        """These cells, and all that laws tie to them."""
        found = set(cells)
        stated = (each for each in self._network.events if isinstance(each, LawStated))
        # (a curve has many pieces)
        groups = {
            each.cells if isinstance(each, BendTold) else tuple(cells_in(each.constraint))
            for each in stated
        }
        count = 0
        while count < len(found):
            count = len(found)
            for group in groups:
                if not found.isdisjoint(group):
                    found.update(group)
        return found

    def _unread_first(self, names: Sequence[str]) -> list[str]:
        """Quantities by name, those without readings in front."""
        were_read = {each.cell.name for each in self._network.events if isinstance(each, Read)}
        return sorted(names, key=lambda name: name in were_read)

    def _readings(self) -> dict[str, list[Read]]:
        """The premises that are believed and state nothing but readings."""
        premises = self._network.premises
        found = {name: premises.readings(name) for name in premises.in_force}
        return {
            name: readings
            for name, readings in found.items()
            if len(readings) == len(premises.statements.get(name, ()))
        }

    def _suspects_first(self, names: Sequence[str]) -> list[str]:
        """Readings by name, those in front that `outliers` tries to give up first."""
        return list(names)

    def _told(self, quantity: Quantity, room: NumberRoom, names: Sequence[str]) -> MeasuredAnswer:
        """What a cell that holds one of these numbers says, because of these premises."""
        lines = self._network.vocabulary.premises
        because = tuple(lines.line(name) for name in names)
        cell = self._network.vocabulary.cells.line(quantity.name)
        reply = Value(cell, Span(room.low, room.high), True, because, None)
        reader = Reader(self._network.vocabulary, self._network.premises)
        return measured(reader.answer(quantity.declared, reply, {}))

    def _conflict_of(self, names: Sequence[str], seconds: float | None) -> Conflict:
        """That these premises can't all hold, made few as far as there is time."""
        lines = self._network.vocabulary.premises
        return self._conflict(Contradiction(tuple(map(lines.line, names))), seconds)

    def _conflict(self, found: Contradiction, seconds: float | None = None) -> Conflict:
        raise NotImplementedError

    def _known(self, cell: Declared, clock: Clock) -> Answer:
        raise NotImplementedError

    def _own(self, cell: object) -> Declared:
        raise NotImplementedError

    def _check_there(self, cells: Iterable[Declared]) -> None:
        """Raises ValueError where one is a cell of another workbench, or is gone."""
        raise NotImplementedError

    def _cell(self, declared: Declared) -> Cell:
        """The cell that was declared so."""
        raise NotImplementedError

    def _quantity(self, made: Declared) -> Quantity:
        """Makes the cell of a quantity."""
        raise NotImplementedError

    def _check_name(self, name: str) -> None:
        """Raises TypeError and ValueError where no cell can be called so."""
        raise NotImplementedError

    def _free_name(self, name: str) -> str:
        """The name, with marks behind it where a cell is called so already."""
        while name in self._network.cells:
            name += "'"
        return name

    def _new_pieces(self, bends: Iterable[Bend], under: str | None) -> list[BendTold]:
        """What is told of curves at first, where it isn't told yet."""
        told = {
            each.piece.bend
            for each in self._network.events
            if isinstance(each, BendTold) and each.premise in (None, under)
        }
        fresh = [bend for bend in dict.fromkeys(bends) if bend not in told]
        found = (bend.piece(place) for bend in fresh for place in bend.first_places())
        return list(told_pieces(found, under))

    def _equations(self, under: str | None) -> list[Polynomial]:
        """The equations that hold always, with which one that does may be combined."""
        if under is not None:
            return []
        always = {it.law: it for it in self._laws() if it.under is None}
        return [it.equation for it in always.values() if it.equation]

    def _quantities(self) -> dict[str, Quantity]:
        """The quantities by name, those that were made for roots and devices too."""
        found = (self._cell(it) for it in self._network.cells.values() if it.measure is not None)
        return {each.name: each for each in found if isinstance(each, Quantity)}

    def _shown_by(self, device: Device, cell: Declared) -> Declared:
        """What stands for that which a device shows of a quantity, made where it is not there."""
        if not isinstance(device, Device):
            raise TypeError(f"{device!r} is no device: make one by `w.device`")
        self._check_there(device.parts.values())
        known = shown_in(self._network.events).get(device.name, {})
        if cell not in known:
            name = self._free_name(f"{cell.name} by {device.name}")
            roots = _Roots(self)
            events = shown(self.devices[device.name], cell, name, roots)
            self._network.do(*events)
            roots = _Roots(self)
            known = shown_in(self._network.events)[device.name]
            laws = [it for it in self._laws() if cell in quantities_in(it.law)]
            corrections = self._corrections(device, laws, roots)
            self._network.do(*roots.events, *corrections)
        return known[cell]

    def _corrections(
        self, device: Device, laws: Iterable[StatedLaw], roots: "_Roots"
    ) -> list[Event]:
        """What follows from laws that always hold for what a device shows."""
        shows = shown_in(self._network.events).get(device.name, {})
        found: list[Event] = []
        for it in laws:
            if it.under is None and it.equation and len(shows) > 1:
                law = corrected(it.equation, self.devices[device.name], shows)
                if law is not None:
                    found += told_if_possible(law, roots)
        return found

    def _laws(self) -> list[StatedLaw]:
        """The laws, as they are told, in the order in which they were stated."""
        return [each.stated for each in self._network.events if isinstance(each, LawTold)]


class _Roots:
    """Gives the quantities that stand for roots within terms: those that are known, and new
    ones."""

    def __init__(self, bench: Measuring) -> None:
        made = (each for each in bench._network.events if isinstance(each, RootMade))
        self._known = {each.root: each.cell for each in made}
        self._bench = bench
        self._made: dict[Real, Declared] = {}

    def __call__(self, root: Real, measure: Measure) -> Declared:
        if root in self._known:
            return self._known[root]
        if root not in self._made:
            name = self._bench._free_name(text_of(root))
            self._made[root] = declared(name, measure, self._bench._owner)
        return self._made[root]

    @property
    def events(self) -> list[RootMade]:
        """The events that make the new ones."""
        return [RootMade(cell, root) for root, cell in self._made.items()]


def _whole(cell: Declared) -> NumberRoom:
    """All that a quantity's cell may be."""
    assert cell.low is not None and cell.high is not None
    return NumberRoom(cell.low, cell.high)
