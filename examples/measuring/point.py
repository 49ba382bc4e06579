#!/usr/bin/python3
"""Where a point is, by its distances from four posts."""
from propbench import Workbench

w = Workbench()
x = w.measured("x", unit="m", low=-100, high=100, step="0.001")
y = w.measured("y", unit="m", low=-100, high=100, step="0.001")
posts = {"A": ("0 m", "0 m"), "B": ("60 m", "0 m"), "C": ("0 m", "50 m"), "D": ("60 m", "50 m")}
tapes = {"A": "29.284", "B": "40.167", "C": "40.483", "D": "48.899"}
for post, (east, north) in posts.items():
    far = w.measured(f"from {post}", unit="m", low=0, high=200, step="0.001")
    w.law(far == ((x - east) ** 2 + (y - north) ** 2).sqrt())
    w.read(f"tape {post}", far, f"{tapes[post]} +- 0.05 m")
print(w.shave(x))
print(w.shave(y))
print(w.sensitivity(y))
w.picture().save("point.svg")
