#!/usr/bin/python3
"""How high is the building? By the shadow of a barometer, and by its fall from the roof."""
from propbench import Workbench

w = Workbench()
height = w.measured("height", unit="m", low=10, high=100, step="0.01")
barometer = w.measured("barometer", unit="m", low="0.1", high=1, step="0.001")
its_shadow = w.measured("its shadow", unit="m", low="0.1", high=1, step="0.001")
shadow = w.measured("shadow", unit="m", low=10, high=100, step="0.01")
gravity = w.measured("gravity", unit="m/s2", low="9.7", high="9.9", step="0.0001")
time = w.measured("time", unit="s", low="0.5", high=10, step="0.001")
w.law(height / shadow == barometer / its_shadow)
w.law(height == gravity * time**2 / 2)
w.read("ruler", barometer, "300..320 mm")
w.read("ruler in the sun", its_shadow, "365 +- 5 mm")
w.read("tape", shadow, "55.0 +- 0.1 m")
print(height.ask())
w.read("atlas", gravity, "9.789..9.832")
w.read("watch", time, "3.0 +- 0.1 s")
w.show(height, barometer, time)
w.picture().save("barometer.svg")
