#!/usr/bin/python3
"""A recipe scaled, both ways: what a bag of flour gives, and what three loaves take."""
from propbench import Workbench

w = Workbench()
flour, water, salt, dough, bread = (
    w.measured(name, unit="g", low=0, high=10_000, step="0.1")
    for name in ("flour", "water", "salt", "dough", "bread")
)
moist = w.measured("water to flour", unit="%", low=50, high=100, step="0.01")
loss = w.measured("loss in the oven", unit="%", low=0, high=50, step="0.01")
w.law(water == flour * moist)
w.law(salt == flour * "2 %")
w.law(dough == flour + water + salt)
w.law(bread == dough * (1 - loss))
w.read("recipe", moist, "65..70 %")
w.read("baker", loss, "10..14 %")
w.read("bag", flour, "1000 +- 5 g")
w.show(water, salt, bread)

# Three loaves, each of 750 to 800 grams. (The bag is put away: it would speak against that.)
w.read("order", bread, "2250..2400 g")
print(w.outliers())
w.kick("bag")
w.show(flour, water, salt)

# Backward the laws tell a little less than there is to know. The ends of the flour, tried out:
print(w.shave(flour))
flour.picture().save("recipe.svg")
