#!/usr/bin/python3
"""Who lives on which floor? Five tenants, what they told, and which of it one can do without."""
from propbench import Workbench, all_different

w = Workbench()
names = "Baker Cooper Fletcher Miller Smith".split()
baker, cooper, fletcher, miller, smith = tenants = [w.number(name, 1, 5) for name in names]
w.require(all_different(tenants))
w.require(baker != 5, under="Baker isn't at the top")
w.require(cooper != 1, under="Cooper isn't at the bottom")
w.require((fletcher != 1) & (fletcher != 5), under="Fletcher is at neither end")
w.require(miller > cooper, under="Miller is above Cooper")
w.require(abs(smith - fletcher) != 1, under="Smith isn't next to Fletcher")
w.require(abs(fletcher - cooper) != 1, under="Fletcher isn't next to Cooper")
print(w.plans(tenants))
w.picture().save("dwelling.svg")

# Which of these are needed? A table of what is left without each.
for told in w.premises:
    with w.what_if(kick=[told]):
        print(f"{len(w.plans(tenants))} without: {told}")

# The postman is sure of something else. One of these is wrong:
w.require(miller < baker, under="the postman: Baker is above Miller")
print(w.conflicts())
print(w.repairs(weight={"the postman: Baker is above Miller": 0.5}))
