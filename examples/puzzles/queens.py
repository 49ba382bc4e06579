#!/usr/bin/python3
"""Eight queens on a board, of which none threatens another: in all ways."""
from propbench import Workbench, all_different

w = Workbench()
columns = "abcdefgh"
# In each column stands one queen: in which row?
queens = [w.number(column, 1, 8) for column in columns]
w.require(all_different(queens))
w.require(all_different(queen + place for place, queen in enumerate(queens)))
w.require(all_different(queen - place for place, queen in enumerate(queens)))
w.picture().save("queens.svg")
ways = w.plans(queens)
print(ways.headline())
for row in range(8, 0, -1):
    print(row, *("Q" if ways[0][column] == row else "." for column in columns))
print(" ", *columns)

# Three stand already, and none of them threatens another. Can the board be filled?
for who, place, row in (("white", 0, 1), ("black", 1, 4), ("red", 7, 5)):
    w.tell(who, queens[place], row)
print(w.conflicts())
repairs = w.repairs()
print(repairs)
for who in repairs[0]:
    w.kick(who)
print(w.plans(queens))
