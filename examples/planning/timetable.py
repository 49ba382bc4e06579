#!/usr/bin/python3
"""A course timetable: nine lessons, four teachers, two classes, two rooms and five hours."""
from itertools import combinations

from propbench import Workbench

TEACHERS = {
    "Ott": ["maths A", "maths B"],
    "Kay": ["physics A", "physics B"],
    "Liu": ["Latin A", "Latin B"],
    "Roy": ["history A", "history B", "art AB"],
}
w = Workbench()
hours = w.domain("hour", "mon9 mon11 tue9 tue11 wed9")
rooms = w.domain("room", "laboratory hall")
teacher = {lesson: who for who, lessons in TEACHERS.items() for lesson in lessons}
hour = {lesson: w.element(lesson, hours) for lesson in teacher}
room = {lesson: w.element(f"{lesson} in", rooms) for lesson in teacher}

# Who is there when; what needs the laboratory; what shouldn't come early.
for who, when in {
    "Ott comes on Monday": "mon9 mon11",
    "Kay leaves on Tuesday noon": "mon9 mon11 tue9",
    "Liu leaves on Tuesday noon": "mon9 mon11 tue9",
    "Roy sleeps long on Monday": "mon11 tue9 tue11 wed9",
}.items():
    for lesson in TEACHERS[who[:3]]:
        w.require(hour[lesson].among(*when.split()), under=who)
for lesson in TEACHERS["Kay"]:
    w.require(room[lesson] == "laboratory", under="physics has the laboratory")
w.require(hour["art AB"] == "wed9", under="art ends the week")
w.picture().save("timetable.svg")

# Nobody is at two places at once, and in a room there is one lesson at a time.
for one, other in combinations(teacher, 2):
    apart = hour[one] != hour[other]
    classes = set(one.split()[1]) & set(other.split()[1])
    if classes or teacher[one] == teacher[other]:
        w.require(apart)
    else:
        w.require(apart | (room[one] != room[other]))

print(w.conflicts())
repairs = w.repairs(weight={"Ott comes on Monday": 3, "Liu leaves on Tuesday noon": 2})
print(repairs)
for wish in repairs[0]:
    w.kick(wish)
[plan] = w.plans(most=1)
for time in hours.elements:
    held = [lesson for lesson in teacher if plan[hour[lesson].name] == time]
    print(f"{time}:", ", ".join(f"{lesson} ({plan[room[lesson].name]})" for lesson in held))
