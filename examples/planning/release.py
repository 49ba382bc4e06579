#!/usr/bin/python3
"""A release: which way to go, how soon it is out for what money, and what decides that."""
from datetime import date

from propbench import Workbench

w = Workbench()
p = w.project(days=30, people="ana ben cleo", start=date(2026, 3, 2), off="sat sun")
design = p.task("design", 3, who="ana")
engines = {"our own engine": dict(days=9), "a library": dict(days=3, cost=1800)}
engine = p.task("engine", who="ben", after=[design], options=engines)
screens = p.task("screens", 6, who="ana", after=[design])
guide = p.task("guide", 4, who="ana", after=[screens])
tests = {"by hand": dict(days=6), "by machine": dict(days=2, cost=1200)}
test = p.task("tests", who="cleo", after=[engine, screens], options=tests)
audit = p.task("audit", 4, after=[engine], cost=2000)
words = {"ourselves": dict(days=4), "an agency": dict(days=1, cost=700)}
translate = p.task("translation", who="cleo", after=[screens], options=words)
mend = p.task("mending", 3, who="ben", after=[test, audit])
out = p.task("release", 1, who="ana ben cleo", after=[mend, guide, translate])

# How soon is it out for what money, and how long do the three take then that have a choice?
print("money  out         engine  tests  translation")
for money in (2000, 2700, 3200, 3800, 5000):
    with w.what_if(tell=[("money", p.total_cost, 0, money)]):
        best = w.least(p.end).plan
    taken = [best[task.days.name] for task in (engine, test, translate)]
    print(money, "", p.date(best["end"]), *taken, sep="  ")

# The fair begins on the 24th of March, and there is less money.
p.done_by(date(2026, 3, 24), under="before the fair")
w.require(p.total_cost <= 3500, under="the budget")
w.require(engine.cost == 0, under="no foreign engine")
print(w.conflicts(keep=p.facts))
print(w.repairs(weight={"the budget": 2}, keep=p.facts))

# The fair is given up. What decides how late it gets, and who has time?
w.kick("before the fair")
print(p.date(w.least(p.end).value), w.critical(p.end).names)
p.done_by(20, under="as soon as can be")
print(w.slack(guide.start))
p.chart().save("release.svg")
