#!/usr/bin/python3
"""A net of levels, both ways: what is proved of the heights, and what least squares estimate."""
from propbench import Workbench

LINES = {  # by how many metres the second stands above the first: off by 3 mm at the most
    "AB": "5.102",
    "BC": "-2.337",
    "CA": "-2.767",
    "CD": "1.204",
    "DB": "1.135",
    "AD": "3.968",
    "DE": "0.846",
    "EB": "0.287",
    "CE": "2.051",
}
w = Workbench()
heights = {n: w.measured(n, unit="m", low=0, high=300, step="0.0001") for n in "ABCDE"}
w.read("mark", heights["A"], 100)
for (begin, end), rises in LINES.items():
    line = w.measured(f"{begin} to {end}", unit="m", low=-300, high=300, step="0.0001")
    w.law(line == heights[end] - heights[begin])
    w.read(begin + end, line, f"{rises} +- 0.003 m")

# An estimate's U is narrower than the proved bounds: along a way bounds add up, and deviations by
# their squares; but that a height lies within its bounds is sure if each line is within its own.
print(w.adjust())

# A line that was misread by 5 cm. Least squares suspect it first, and so `outliers` tries it first.
w.forget("CD")
w.read("CD", w.cell("C to D"), "1.254 +- 0.003 m")
found = w.adjust()
print(found.headline())
print("suspect, the most in front:", *found.suspects)
print(w.outliers(most=2))
w.kick("CD")
heights["D"].picture().save("levels.svg")
