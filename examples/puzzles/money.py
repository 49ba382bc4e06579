#!/usr/bin/python3
"""SEND + MORE = MONEY: each letter is a digit, and no two are the same."""
from propbench import Workbench, all_different

w = Workbench()
digit = {letter: w.number(letter, 0, 9) for letter in "SENDMORY"}
w.require(all_different(digit.values()))


def number(word):
    """The number that a word stands for."""
    return sum(10**place * digit[letter] for place, letter in enumerate(reversed(word)))


w.require(number("SEND") + number("MORE") == number("MONEY"))
w.require(digit["S"] > 0, under="SEND begins with no 0")
w.require(digit["M"] > 0, under="MORE begins with no 0")

# What follows without trying anything: M, O, S are known, of the others only what they may be.
w.show()
w.picture().save("money.svg")

plans = w.plans()
print(plans)
[plan] = plans
said = {word: "".join(str(plan[letter]) for letter in word) for word in ("SEND", "MORE", "MONEY")}
print(f"{said['SEND']} + {said['MORE']} = {said['MONEY']}")

# With a leading 0 there are more.
w.kick("MORE begins with no 0")
print(w.plans().headline())
