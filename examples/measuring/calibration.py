#!/usr/bin/python3
"""A calibration line through six points, and what it says of a seventh."""
from propbench import Workbench

w = Workbench()
slope = w.measured("slope", unit="mV/K", low="0.01", high="0.1", step="0.00001")
offset = w.measured("offset", unit="mV", low=-1, high=1, step="0.0001")
readings = {0: "0.012", 20: "0.803", 40: "1.611", 60: "2.409", 80: "3.222", 100: "4.014"}
for kelvin, volts in readings.items():
    signal = w.measured(f"at {kelvin}", unit="mV", low=-2, high=12, step="0.001")
    w.law(signal == offset + slope * f"{kelvin} K")
    w.read(f"meter at {kelvin}", signal, f"{volts} +- 0.01 mV")
above = w.measured("unknown", unit="K", low=0, high=100, step="0.1")
signal = w.measured("its signal", unit="mV", low=-2, high=12, step="0.001")
w.law(signal == offset + slope * above)
w.read("meter", signal, "2.000 +- 0.010 mV")
w.show(slope, offset, above)
print(w.shave(above))
above.picture().save("calibration.svg")
