#!/usr/bin/python3
"""Five houses in a row: who drinks water, and who has the zebra?"""
from propbench import Workbench, all_different

w = Workbench()
kinds = {
    "who": "Englishman Spaniard Ukrainian Norwegian Japanese",
    "colour": "red green ivory yellow blue",
    "pet": "dog snails fox horse zebra",
    "drink": "coffee tea milk juice water",
    "smoke": "OldGold Kools Chesterfield LuckyStrike Parliament",
}
# Of each the house in which it is, the first on the left. In a house there is one of a kind.
house = {name: w.number(name, 1, 5) for names in kinds.values() for name in names.split()}
for names in kinds.values():
    w.require(all_different(house[name] for name in names.split()))

for one, other in (
    ("Englishman", "red"),
    ("Spaniard", "dog"),
    ("coffee", "green"),
    ("Ukrainian", "tea"),
    ("OldGold", "snails"),
    ("Kools", "yellow"),
    ("LuckyStrike", "juice"),
    ("Japanese", "Parliament"),
):
    w.require(house[one] == house[other], under=f"{one} with {other}")
for one, other in (("Chesterfield", "fox"), ("Kools", "horse"), ("Norwegian", "blue")):
    w.require(abs(house[one] - house[other]) == 1, under=f"{one} next to {other}")
w.require(house["green"] == house["ivory"] + 1, under="green right of ivory")
w.require(house["milk"] == 3, under="milk in the middle")
w.require(house["Norwegian"] == 1, under="Norwegian at the left end")
house["water"].picture().save("zebra.svg")

plans = w.plans(most=2)
print(plans.headline())
[plan] = plans
for number in range(1, 6):
    print(number, *(name for name in house if plan[name] == number))
who = {plan[name]: name for name in kinds["who"].split()}
print(f"The {who[plan['water']]} drinks water, and the {who[plan['zebra']]} has the zebra.")

# Someone swears that the zebra lives left of who drinks water. Which clues speak against that?
w.require(house["zebra"] < house["water"], under="zebra left of water")
print(w.conflicts(most=1))
