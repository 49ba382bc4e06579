#!/usr/bin/python3
"""A planner's whole case: sixteen tasks, three people, eleven wishes, and what to do about them."""
from propbench import Workbench

w = Workbench()
p = w.project(days=60, people="ana ben cleo")
budget = p.task("budget", 2, who="ana")
hotel, uni = dict(days=2, cost=4000), dict(days=5, cost=1500)
venue = p.task("venue", who="ana", after=[budget], options={"hotel": hotel, "uni": uni})
call = p.task("call for papers", 3, who="ben", after=[venue])
papers = p.task("papers", 14, after=[call])
reviews = {"three each": dict(days=8), "two each": dict(days=5, cost=300)}
review = p.task("review", who="ben", after=[papers], options=reviews)
decide = p.task("decisions", 2, who="ben cleo", after=[review])
sponsors = p.task("sponsors", 6, who="ana", after=[budget])
food = {"canteen": dict(days=1, cost=900), "caterer": dict(days=3, cost=2200)}
catering = p.task("catering", who="cleo", after=[venue], options=food)
keynote = p.task("keynote", 4, who="ben", after=[venue], cost=800)
website = p.task("web site", 5, who="cleo", after=[venue])
register = p.task("registration", 4, who="cleo", after=[website, sponsors])
program = p.task("programme", 3, who="ben", after=[decide, keynote])
prints = p.task("printing", 3, who="cleo", after=[program], cost=500)
badges = p.task("badges", 1, who="cleo", after=[register], cost=120)
rehearse = p.task("rehearsal", 1, who="ana ben", after=[program])
meet = p.task("meeting", 3, who="ana ben cleo", after=[prints, badges, rehearse, catering])

print(w.trade_off(p.end, p.total_cost))
p.away("ana", 5, 15, under="ana away")
p.done_by(48, under="before summer")
p.done_by(40, under="early")
p.done_by(12, under="venue soon", task=venue)
w.require(p.total_cost <= 5400, under="cheap")
w.require(p.total_cost <= 4500, under="very cheap")
w.require(keynote.start <= 10, under="keynote soon")
w.require(review.days >= 8, under="good reviews")
w.require(venue.cost >= 4000, under="a hotel")
w.require(catering.cost >= 2000, under="good food")
w.require(register.end + 10 <= meet.start, under="time to register")

print(w.conflicts(keep=p.facts))
repairs = w.repairs(weight={"ana away": 20, "a hotel": 3, "very cheap": 0.5}, keep=p.facts)
print(repairs)
for wish in repairs[0]:
    w.kick(wish)
yesterday = w.snapshot()
for best in (w.least(p.total_cost), w.least(p.end)):
    print(f"The least {best.cell} is {best.value}{'' if best.proved else ', as far as is known'}.")
print("It ends no sooner because of:", w.critical(p.end).names)
print(w.slack(sponsors.start))
w.kick("good reviews")
print(w.plans([venue.days, review.days, review.start]))
rows = {"no hotel": dict(kick=["a hotel"]), "ana stays": dict(kick=["ana away"])}
print(w.scenarios(rows, [venue.end, p.end, p.total_cost]))
w.bring("good reviews")
w.tell("the web site is late", website.start, 8, 60)
print(w.diff(yesterday))
p.chart(rooms=False).save("conference.svg")
