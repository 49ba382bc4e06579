#!/usr/bin/python3
"""A map is coloured so that neighbours differ: in how many ways, and why two are too few."""
from propbench import Workbench

BORDERS = """
WA NT, WA SA, NT SA, NT Queensland, SA Queensland, SA NSW, SA Victoria, Queensland NSW, NSW Victoria
"""
w = Workbench()
colours = w.domain("colour", "red green blue")
names = "WA NT SA Queensland NSW Victoria Tasmania".split()
colour = {name: w.element(name, colours) for name in names}
for border in BORDERS.split(","):
    one, other = border.split()
    w.require(colour[one] != colour[other], under=f"{one} by {other}")

# Each colour may be painted for another; so one state's is given, and Tasmania has no neighbours.
w.fix(colour["SA"], "red")
w.picture().save("map.svg")
plans = w.plans(list(colour.values()))
print(plans)

# Without blue it can't be: which borders are at fault, and which would have to be forgotten?
for name in names:
    w.require(colour[name] != "blue", under="no blue")
print(w.conflicts(keep=["no blue"]))
repairs = w.repairs(keep=["no blue"])
print(repairs.headline(), "the cheapest is", " and ".join(sorted(repairs[0])))
