"""Devices: readings by one of them share its errors, which are quantities of their own.

What is measured is what the device shows, times one more than its scale error, and its offset error
beside: `x == shown * (1 + scale) + offset`. Both errors are the same in all its readings, so that a
difference keeps no offset, and a ratio no scale. That they are small is what its premise states.
"""

from collections.abc import Iterable, Mapping, Sequence
from dataclasses import dataclass, field
from enum import Enum
from fractions import Fraction

from propbench.measuring.amounts import NoReading, amount_of
from propbench.measuring.bounds import Bounds
from propbench.measuring.defining import RootOf
from propbench.measuring.exact import Exact, exact_of, short
from propbench.measuring.linear import summed
from propbench.measuring.polynomials import Polynomial, factored, multiplied_out
from propbench.measuring.quantities import countable, measure_between
from propbench.measuring.readings import Reading, in_ascii
from propbench.measuring.stating import declared, read, stated
from propbench.measuring.terms import ONE, Law, Real, RealSort, text_of
from propbench.measuring.units import BARE, MixedUnits, Unit, dimension_text, unit_of
from propbench.model.events import CellMade, Event, LawStated
from propbench.model.nodes import Declared

# Without its premise a device is off by so many times as much at the most, and by less than half of
# what it shows.
_BEYOND = 1000
_MOST_SCALE = Fraction(1, 2)


class DeviceRole(Enum):
    """What a cell is to a device. Its shift is the offset before the scale: offset / (1 +
    scale)."""

    OFFSET = "offset"
    SCALE = "scale"
    SHIFT = "shift"


@dataclass(frozen=True)
class Device:
    """A device, the premise that it is as good as is said of it, and its errors."""

    name: str
    parts: Mapping[DeviceRole, Declared] = field(compare=False)

    def __str__(self) -> str:
        return self.name


@dataclass(frozen=True)
class DevicePart(CellMade):
    """A quantity is there for an error of a device."""

    device: str
    role: DeviceRole


@dataclass(frozen=True)
class ShownMade(CellMade):
    """A quantity is there for what a device shows of another."""

    device: str
    of: Declared


@dataclass(frozen=True)
class DeviceLaw(LawStated):
    """What holds between what a device shows and what is measured."""

    law: Law = field(compare=False)


@dataclass(frozen=True)
class Corrected(LawStated):
    """What follows for what a device shows of several quantities."""


@dataclass(frozen=True)
class Errors:
    """How large the errors of a device are at the most; the offset in base units of a unit."""

    offset: Fraction
    unit: Unit
    scale: Fraction


def errors_of(name: str, offset: Exact | str | None, scale: Exact | str | None) -> Errors:
    """The errors of a device as a user gives them. Raises NoReading and UnknownUnit."""
    size, unit = _size(name, "offset", offset)
    if unit.offset:
        raise NoReading(
            f"an offset of {name!r} is a difference: write it in K, and not {unit.text}"
        )
    share, share_unit = _size(name, "scale", scale)
    if share_unit.dimension:
        raise NoReading(f"a scale error of {name!r} is a share, as `0.1 %`: {scale!r}")
    if not size and not share:
        raise ValueError(f"{name!r} needs offset= or scale=: how large its own errors may be")
    if share >= _MOST_SCALE:
        raise ValueError(f"a scale error is less than a half, and that of {name!r} is {scale}")
    return Errors(size, unit, share)


def _size(name: str, role: str, given: Exact | str | None) -> tuple[Fraction, Unit]:
    """How large an error may be, in base units, and its unit. Raises NoReading."""
    if given is None:
        return Fraction(0), unit_of("1")
    if isinstance(given, str):
        amount = amount_of(in_ascii(given).removeprefix("+-"), given)
        unit = unit_of(amount.unit or "1")
        size = amount.value * unit.factor
    else:
        size, unit = exact_of(given), unit_of("1")
    if size <= 0:
        raise NoReading(f"the {role} error of {name!r} is more than 0: {short(str(given))!r}")
    return size, unit


def made(name: str, errors: Errors, owner: object, root_of: RootOf) -> list[Event]:
    """The events of a new device."""
    parts: dict[DeviceRole, Declared] = {}
    events: list[Event] = []
    # (what is off by more than it may be, without the premise)
    scale = min(_BEYOND * errors.scale, _MOST_SCALE)
    sizes = {
        DeviceRole.OFFSET: (errors.offset, _BEYOND * errors.offset, errors.unit),
        DeviceRole.SCALE: (errors.scale, scale, unit_of("1")),
    }
    for role, (size, most, unit) in sizes.items():
        if size:
            end = most / unit.factor
            measure = measure_between(f"{name} {role.value}", unit, (-end, end), None)
            parts[role] = declared(f"{name} {role.value}", measure, owner)
            events.append(DevicePart(parts[role], name, role))
            written = f"0 +- {_text(size / unit.factor)} {unit.text}".removesuffix(" 1")
            events.append(read(parts[role], Reading(-size, size, written), name))
    if len(parts) == len(sizes):
        end = _BEYOND * errors.offset / (1 - scale) / errors.unit.factor
        measure = measure_between(f"{name} shift", errors.unit, (-end, end), None)
        parts[DeviceRole.SHIFT] = declared(f"{name} shift", measure, owner)
        events.append(DevicePart(parts[DeviceRole.SHIFT], name, DeviceRole.SHIFT))
        shift, gain = real_of_cell(parts[DeviceRole.SHIFT]), _gain(parts)
        right = Real(RealSort.PRODUCT, (shift, gain), shift.dimension)
        events += _told(_law(real_of_cell(parts[DeviceRole.OFFSET]), right), root_of)
    return events


def _text(number: Fraction) -> str:
    return f"{float(number):.12g}"


def devices_in(events: Iterable[Event]) -> dict[str, Device]:
    """The devices that there are, by name."""
    parts: dict[str, dict[DeviceRole, Declared]] = {}
    for each in events:
        if isinstance(each, DevicePart):
            parts.setdefault(each.device, {})[each.role] = each.cell
    return {name: Device(name, found) for name, found in parts.items()}


def shown_in(events: Iterable[Event]) -> dict[str, dict[Declared, Declared]]:
    """For each device what stands for that which it shows of each quantity."""
    found: dict[str, dict[Declared, Declared]] = {}
    for each in events:
        if isinstance(each, ShownMade):
            found.setdefault(each.device, {})[each.of] = each.cell
    return found


def shown(device: Device, quantity: Declared, name: str, root_of: RootOf) -> list[Event]:
    """The events of a new quantity: what a device shows of another. Raises MixedUnits where that
    has another unit than its offset."""
    measure = quantity.measure
    assert measure is not None
    unit = unit_of(measure.unit)
    bounds = _bounds(device, (measure.low, measure.high), unit, quantity.name)
    low, high = ((end - unit.offset) / unit.factor for end in bounds)
    # (it may reach farther than the quantity, whose step is finer than a cell can count there)
    step = countable(measure.digits, unit, (low, high))
    cell = declared(name, measure_between(name, unit, (low, high), step), quantity.owner)
    shows, right = real_of_cell(cell), real_of_cell(cell)
    if DeviceRole.SCALE in device.parts:
        right = Real(RealSort.PRODUCT, (shows, _gain(device.parts)), shows.dimension)
    if DeviceRole.OFFSET in device.parts:
        offset = real_of_cell(device.parts[DeviceRole.OFFSET])
        right = Real(RealSort.SUM, (right, offset), shows.dimension)
    law = _law(real_of_cell(quantity), right)
    return [ShownMade(cell, device.name, quantity), *_told(law, root_of)]


def _bounds(device: Device, ends: Bounds, unit: Unit, name: str) -> Bounds:
    """Between which reals that lies which a device shows of what lies between these. Raises
    MixedUnits, and ValueError for the scale of a temperature whose zero is somewhere."""
    offset = scale = Fraction(0)
    if DeviceRole.OFFSET in device.parts:
        of = device.parts[DeviceRole.OFFSET].measure
        assert of is not None
        other = unit_of(of.unit)
        if other.dimension != unit.dimension:
            raise MixedUnits(
                f"the offset of {device.name!r} is in {other.text} "
                f"({dimension_text(other.dimension)}), and {name!r} in {unit.text}"
            )
        offset = of.high
    if DeviceRole.SCALE in device.parts:
        if unit.offset:
            raise ValueError(
                f"{device.name!r} has a scale error, and {name!r} is in {unit.text}, whose zero is "
                "none of a scale: give the device an offset alone"
            )
        of = device.parts[DeviceRole.SCALE].measure
        assert of is not None
        scale = of.high
    corners = [
        (end + sign * offset) / (1 + side * scale)
        for end in ends
        for sign in (-1, 1)
        for side in (-1, 1)
    ]
    return min(corners), max(corners)


def corrected(
    equation: Polynomial, device: Device, shows: Mapping[Declared, Declared]
) -> Law | None:
    """What follows from an equation for what a device shows of several quantities in it: without
    its shift where that cancels, and without its scale. None where there are not several."""
    atoms = {
        atom for monomial in equation for atom, _ in monomial if atom.sort is RealSort.QUANTITY
    }
    pairs = {
        real_of_cell(cell): real_of_cell(shows[cell])
        for cell in shows
        if real_of_cell(cell) in atoms
    }
    if len(pairs) < 2:
        return None
    shift = device.parts.get(DeviceRole.SHIFT) or (
        device.parts.get(DeviceRole.OFFSET) if DeviceRole.SCALE not in device.parts else None
    )
    by_degree = _by_degree(_without_divisors(equation, list(pairs)), pairs, shift)
    if by_degree is None:
        return None
    lowest = min(by_degree, default=0)
    parts = [
        _times_gain(factored(part), device, degree - lowest)
        for degree, part in sorted(by_degree.items())
    ]
    if not parts:
        return None
    return _law(summed(parts), Real(RealSort.CONSTANT, (), parts[0].dimension))


def _without_divisors(equation: Polynomial, atoms: Sequence[Real]) -> Polynomial:
    """The equation times powers of atoms, so that none of these is a divisor."""
    least = {
        atom: min(0, min(dict(monomial).get(atom, 0) for monomial in equation)) for atom in atoms
    }
    by = tuple((atom, -exponent) for atom, exponent in least.items() if exponent)
    found = multiplied_out(equation, {by: Fraction(1)})
    return equation if found is None else found


def _by_degree(
    equation: Polynomial, pairs: Mapping[Real, Real], shift: Declared | None
) -> dict[int, Polynomial] | None:
    """An equation with what is shown in the place of what is measured, by how many times the scale
    counts in it; None where there are too many products."""
    found: dict[int, Polynomial] = {}
    for monomial, coefficient in equation.items():
        rest = tuple((atom, power) for atom, power in monomial if atom not in pairs)
        made: Polynomial | None = {rest: coefficient}
        degree = 0
        for atom, power in monomial:
            if atom in pairs:
                degree += power
                for _ in range(power):
                    made = multiplied_out(made, _shifted(pairs[atom], shift))
        if made is None:
            return None
        total = found.setdefault(degree, {})
        for each, factor in made.items():
            total[each] = total.get(each, Fraction(0)) + factor
    kept = {
        degree: {each: factor for each, factor in part.items() if factor}
        for degree, part in found.items()
    }
    return {degree: part for degree, part in kept.items() if part}


def _shifted(shows: Real, shift: Declared | None) -> Polynomial:
    found: Polynomial = {((shows, 1),): Fraction(1)}
    if shift is not None:
        found[((real_of_cell(shift), 1),)] = Fraction(1)
    return found


def _times_gain(real: Real, device: Device, degree: int) -> Real:
    """A term times a power of one more than the scale error."""
    if not degree or DeviceRole.SCALE not in device.parts:
        return real
    gain = _gain(device.parts)
    power = gain if degree == 1 else Real(RealSort.POWER, (gain,), BARE, Fraction(degree))
    return Real(RealSort.PRODUCT, (power, real), real.dimension)


def real_of_cell(cell: Declared) -> Real:
    """The quantity of a cell as a term."""
    assert cell.measure is not None
    return Real(RealSort.QUANTITY, (), unit_of(cell.measure.unit).dimension, declared=cell)


def _gain(parts: Mapping[DeviceRole, Declared]) -> Real:
    return Real(RealSort.SUM, (ONE, real_of_cell(parts[DeviceRole.SCALE])), BARE)


def _law(left: Real, right: Real) -> Law:
    return Law(left, right, True, f"{text_of(left)} == {text_of(right)}")


def _told(law: Law, root_of: RootOf) -> list[Event]:
    found, _ = stated(law, (), None, root_of)
    return [DeviceLaw(found.constraint, None, law.text, law)]


def told_if_possible(law: Law, root_of: RootOf) -> list[Event]:
    """The events of a law that follows anyway: none where it can't be told."""
    try:
        found, _ = stated(law, (), None, root_of)
    except ValueError:
        return []
    return [Corrected(found.constraint, None, law.text)]
