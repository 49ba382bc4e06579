#!/usr/bin/python3
"""A density by two ways: mass by volume, and what a body loses of its weight in water."""
from propbench import Workbench

w = Workbench()
density = w.measured("density", unit="g/cm3", low=1, high=25, step="0.001")
water = w.measured("water", unit="g/cm3", low="0.99", high="1.01", step="0.0001")
mass = w.measured("mass", unit="g", low=1, high=500, step="0.01")
in_water = w.measured("in water", unit="g", low=1, high=500, step="0.01")
volume = w.measured("volume", unit="cm3", low=1, high=100, step="0.01")
w.law(density == mass / volume)
w.law(density == water * mass / (mass - in_water))
w.read("balance", mass, "100.00 g")
w.read("cylinder", volume, "7.0 cm3 +- 0.1 cm3")
w.read("hanging", in_water, "93.0 +- 0.1")
w.read("tables", water, "0.9982..0.9984 g/cm3")
print(density.ask())
print(w.shave(density))
print(w.predict(volume, "+- 0.1 cm3"))
w.picture().save("density.svg")
