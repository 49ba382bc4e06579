#!/usr/bin/python3
"""A household's power: what the meter leaves for the fridge, and what one fuse bears."""
from itertools import combinations

from propbench import Workbench, total

w = Workbench()
day = w.measured("day", unit="kWh", low=0, high=50, step="0.01")
power, energy = {}, {}
for name, watts, hours in (
    ("oven", "2.0 kW +- 5%", "90 +- 5 min"),
    ("kettle", "1800..2200 W", "20 +- 2 min"),
    ("washing", "0.9 +- 0.1 kW", "2.0 +- 0.1 h"),
    ("fridge", None, "24 h"),
):
    power[name] = w.measured(f"{name}, power", unit="W", low=0, high=4000, step=1)
    energy[name] = w.measured(f"{name}, energy", unit="kWh", low=0, high=100, step="0.001")
    time = w.measured(f"{name}, time", unit="h", low=0, high=24, step="0.01")
    w.law(energy[name] == power[name] * time)
    w.read(f"{name}'s clock", time, hours)
    if watts:
        w.read(f"{name}'s label", power[name], watts)
w.law(day == total(energy.values()))
before = w.measured("before", unit="kWh", low=0, high=10_000, step="0.1")
after = w.measured("after", unit="kWh", low=0, high=10_000, step="0.1")
w.law(day == after - before)
w.read("meter in the evening", before, "4123.4 kWh")
w.read("meter a day later", after, "4130.7 kWh")
w.show(day, power["fridge"])

# The fridge's label says less than the meter leaves for it: what may be wrong?
w.read("fridge's label", power["fridge"], "25 +- 5 W")
print(w.outliers())
w.kick("fridge's label")

# A fuse of 16 A bears two of these at once, where all of the range is below it.
voltage = w.measured("voltage", unit="V", low=200, high=260, step="0.1")
w.read("mains", voltage, "230 V +- 5%")
for pair in combinations(("oven", "kettle", "washing"), 2):
    current = w.measured(" and ".join(pair), unit="A", low=0, high=40, step="0.01")
    w.law(current == total(power[name] for name in pair) / voltage)
    print(current.ask())
power["fridge"].picture().save("household.svg")
