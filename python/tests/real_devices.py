"""Devices in random cases, whose errors are drawn: what is measured is what a device shows, times
one more than its scale error, and its offset error beside.
"""

import random
from collections.abc import Mapping
from dataclasses import dataclass
from fractions import Fraction
from typing import Any

from propbench import Workbench
from propbench.measuring.devices import Device, DevicePart, DeviceRole, ShownMade
from propbench.measuring.quantities import Quantity
from propbench.measuring.terms import RealSort
from propbench.measuring.units import unit_of
from propbench.model.nodes import Declared
from real_intervals import Number, worked_out

_SCALES = ["0.01 %", "1 %", "30 %", "2 ppm"]


@dataclass
class Drawn:
    """A device, how large its errors may be, and those that it has, in base units."""

    device: Device
    sizes: tuple[Fraction, Fraction]
    offset: Fraction = Fraction(0)
    scale: Fraction = Fraction(0)

    def redraw(self, draw: random.Random, *, is_good: bool) -> None:
        """Other errors: as small as is said of it, or what it may be without its premise."""
        parts = self.device.parts
        errors = []
        for role, size in zip((DeviceRole.OFFSET, DeviceRole.SCALE), self.sizes):
            most = size
            if not is_good and size:
                measure = parts[role].measure
                assert measure is not None
                most = min(size * draw.choice([1, 30, 1000]), measure.high)
            errors.append(most * Fraction(draw.choice([-16, 16, draw.randint(-16, 16)]), 16))
        self.offset, self.scale = errors

    def shows(self, real: Number) -> Number:
        """What it shows of a real."""
        raised = worked_out(RealSort.DIFFERENCE, [real, self.offset])
        return worked_out(RealSort.QUOTIENT, [raised, 1 + self.scale])

    def part(self, role: DeviceRole) -> Fraction:
        """What a quantity of it is."""
        found = {DeviceRole.OFFSET: self.offset, DeviceRole.SCALE: self.scale}
        return found[role] if role in found else self.offset / (1 + self.scale)


def drawn_device(w: Workbench, draw: random.Random, unit: str, width: Fraction) -> Drawn:
    """A device for quantities of a unit that lie within so many of it."""
    name = f"device {len(w.devices)}"
    of = unit_of(unit)
    # (the scale of a temperature whose zero is somewhere has no sense)
    kinds = draw.choice(["o", "s", "os"]) if not of.offset else "o"
    offset = width * Fraction(draw.choice([1, 10, 100]), 1000)
    written = f"{float(offset):.3g}"
    plain = Fraction(written)
    scale = draw.choice(_SCALES)
    difference = "K" if of.offset else unit
    made = w.device(
        name,
        offset=f"{written} {difference}".removesuffix(" 1") if "o" in kinds else None,
        scale=scale if "s" in kinds else None,
    )
    share = unit_of(scale.split()[1]).factor * Fraction(scale.split()[0])
    sizes = (
        plain * unit_of(difference).factor if "o" in kinds else Fraction(0),
        share if "s" in kinds else Fraction(0),
    )
    drawn = Drawn(made, sizes)
    drawn.redraw(draw, is_good=True)
    return drawn


def reals_of_devices(
    w: Workbench, devices: Mapping[str, Drawn], reals: Mapping[str, Number]
) -> dict[Declared, Number]:
    """What the quantities are that devices have of their own, and those that they show."""
    found: dict[Declared, Any] = {}
    for event in w._network.events:
        if isinstance(event, DevicePart):
            found[event.cell] = devices[event.device].part(event.role)
        elif isinstance(event, ShownMade):
            found[event.cell] = devices[event.device].shows(reals[event.of.name])
    return found


def device_for(
    w: Workbench,
    draw: random.Random,
    devices: dict[str, Drawn],
    quantity: Quantity,
    width: Fraction,
) -> Drawn | None:
    """A device that is there for the unit of a quantity, or a new one; mostly none."""
    unit = quantity.unit
    there = [it for it in devices.values() if _fits(it, quantity)]
    if there and draw.random() < 0.7:
        return draw.choice(there)
    if draw.random() > 0.2 or width <= 0:
        return None
    made = drawn_device(w, draw, unit.text, width)
    devices[made.device.name] = made
    return made


def _fits(drawn: Drawn, quantity: Quantity) -> bool:
    """Whether a device can read a quantity."""
    parts, unit = drawn.device.parts, quantity.unit
    if DeviceRole.SCALE in parts and unit.offset:
        return False
    if DeviceRole.OFFSET not in parts:
        return True
    measure = parts[DeviceRole.OFFSET].measure
    assert measure is not None
    return unit_of(measure.unit).dimension == unit.dimension
