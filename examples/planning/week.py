#!/usr/bin/python3
"""Who works when: a shop's week of fourteen shifts, four people, and what they wish."""
from propbench import Workbench, count

w = Workbench()
person = w.domain("person", "ana ben cleo dan")
days = "mon tue wed thu fri sat sun".split()
early = {day: w.element(f"{day} early", person) for day in days}
late = {day: w.element(f"{day} late", person) for day in days}
shifts = [*early.values(), *late.values()]


def not_at(who, some, wish):
    """A wish: someone has none of these shifts."""
    for shift in some:
        w.require(shift != who, under=wish)


not_at("ana", late.values(), "Ana works early")
not_at("ana", [early["sat"], early["sun"]], "Ana has her weekend")
not_at("ben", early.values(), "Ben works late")
not_at("ben", [late["sat"], late["sun"]], "Ben sees his mother")
not_at("cleo", [early["wed"], late["wed"]], "Cleo has choir on Wednesday")
not_at("dan", [early["mon"], late["mon"]], "Dan has school on Monday")
not_at("dan", [early["sun"], late["sun"]], "Dan is away on Sunday")
w.picture().save("week.svg")

# What holds always: one shift a day, none early after a late one, three or four in the week.
for day in days:
    w.require(early[day] != late[day])
for day, after in zip(days, days[1:]):
    w.require(late[day] != early[after])
for who in person.elements:
    worked = count(shift == who for shift in shifts)
    w.require((worked >= 3) & (worked <= 4))

print(w.conflicts())
repairs = w.repairs(weight={"Dan is away on Sunday": 5, "Ana has her weekend": 2})
print(repairs)
for wish in repairs[0]:
    w.kick(wish)

# One plan of those that are left, and who may come late on Monday in any of them.
[plan] = w.plans(shifts, most=1)
for day in days:
    print(f"{day}: {plan[early[day].name]} early, {plan[late[day].name]} late")
print(w.slack(late["mon"]))
