#!/usr/bin/python3
"""Two resistors by nine readings, one of which is an outlier: it is named alone."""
from propbench import Workbench

w = Workbench()
r1 = w.measured("R1", unit="ohm", low=100, high=1000, step="0.1")
r2 = w.measured("R2", unit="ohm", low=100, high=1000, step="0.1")
series = w.measured("series", unit="ohm", low=200, high=2000, step="0.1")
parallel = w.measured("parallel", unit="ohm", low=50, high=500, step="0.1")
w.law(series == r1 + r2)
w.law(parallel == r1 * r2 / (r1 + r2))
w.read("print of R1", r1, "470 ohm +- 5%")
w.read("print of R2", r2, "330 ohm +- 5%")
w.read("meter on R1", r1, "468.0 +- 2.4 ohm")
w.read("meter on R2", r2, "352.0 +- 1.8 ohm")
w.read("bridge on R2", r2, "331.2(4) ohm")
w.read("meter, series", series, "798 +- 8")
w.read("bridge, series", series, "0.7990(5) kohm")
w.read("meter, parallel", parallel, "193..195")
w.read("bridge, parallel", parallel, "193.9 ohm u=0.3")
print(w.outliers())
w.kick("meter on R2")
w.show()
w.picture().save("resistors.svg")
