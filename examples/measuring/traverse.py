#!/usr/bin/python3
"""A survey traverse: five legs by tape and compass, back to where it began. One was misread."""
from math import cos, radians, sin

from propbench import Workbench

LEGS = {  # degrees from north, to a tenth, and metres, to five centimetres
    "AB": ("41.8", "63.05"),
    "BC": ("75.5", "55.80"),
    "CD": ("157.5", "54.70"),  # (it was 57.40)
    "DE": ("245.9", "73.40"),
    "EA": ("293.3", "55.55"),
}
w = Workbench()


def direction(name, share):
    """How far one comes east or north on a metre. An angle that is off by so much of a circle moves
    its sine and its cosine by no more than that (and half a millionth is for the rounding)."""
    found = w.measured(name, low=-1, high=1, step="0.00001")
    w.read("compass " + name[:2], found, f"{share:.6f} +- {radians(0.05) + 0.000001:.6f}")
    return found


legs, east, north = {}, {"A": "0 m"}, {"A": "0 m"}
for leg, (degrees, metres) in LEGS.items():
    start, end = leg
    if end not in east:
        east[end] = w.measured(f"{end} east", unit="m", low=-200, high=200, step="0.01")
        north[end] = w.measured(f"{end} north", unit="m", low=-200, high=200, step="0.01")
    long = legs[leg] = w.measured(leg, unit="m", low=1, high=200, step="0.01")
    w.read(f"tape {leg}", long, f"{metres} +- 0.05 m")
    to_east = direction(f"{leg} to east", sin(radians(float(degrees))))
    to_north = direction(f"{leg} to north", cos(radians(float(degrees))))
    w.law(to_east**2 + to_north**2 == 1)
    w.law(east[end] == east[start] + long * to_east)
    w.law(north[end] == north[start] + long * to_north)
print(w.outliers(most=2))

# So one measures CD again. What would the tape have to show?
w.kick("tape CD")
print(w.predict(legs["CD"], "+- 0.05 m"))
w.read("tape CD again", legs["CD"], "57.40 +- 0.05 m")
print(w.outliers(most=2))
w.show(east["C"], north["C"], east["D"], north["D"])
east["C"].picture().save("traverse.svg")
