#!/usr/bin/python3
"""The mean of three weighings, with its tolerance: 1010, 1010 and 1011 have one."""
from propbench import Workbench, mean

w = Workbench()
weighings = [w.measured(f"mass {n}", unit="g", low=900, high=1100, step=1) for n in (1, 2, 3)]
middle = w.measured("mean", unit="g", low=900, high=1100, step="0.1")
w.law(middle == mean(weighings))
for weighing, shown in zip(weighings, (1010, 1010, 1011)):
    w.read(f"balance, {weighing.name}", weighing, shown)
print(middle.ask())
w.picture().save("mean.svg")
