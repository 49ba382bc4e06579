#!/usr/bin/python3
"""Two Sudokus: one that follows from what is given, and one for which one has to try."""
from propbench import Workbench, all_different

EASY = "530070000600195000098000060800060003400803001700020006060000280000419005000080079"
HARD = "850002400720000009004000000000107002305000900040000000000080070017000000000036040"
PLACES = [f"{row}{column}" for row in "ABCDEFGHI" for column in "123456789"]
# Rows, columns and boxes, by the numbers of their places.
CORNERS = [0, 3, 6, 27, 30, 33, 54, 57, 60]
GROUPS = [[*range(start, start + 9)] for start in range(0, 81, 9)]
GROUPS += [[*range(start, 81, 9)] for start in range(9)]
GROUPS += [[at + row + step for row in (0, 9, 18) for step in range(3)] for at in CORNERS]


def sudoku(given, groups):
    """A workbench of these groups of a Sudoku, which is given row by row, 0 where nothing is."""
    w = Workbench()
    digit = w.domain("digit", "1 2 3 4 5 6 7 8 9")
    cells = {at: w.element(PLACES[at], digit) for at in sorted(set().union(*groups))}
    for group in groups:
        w.require(all_different(cells[at] for at in group))
    for at, cell in cells.items():
        if given[at] != "0":
            w.tell(f"{PLACES[at]} is given", cell, given[at])
    return w


for name, given in (("easy", EASY), ("hard", HARD)):
    w = sudoku(given, GROUPS)
    known = sum(answer.value in [*"123456789"] for answer in w.table().answers)
    solutions = w.plans(most=2)
    said = "one solution" if len(solutions) == 1 and solutions.complete else "no one solution"
    print(f"{name}: {known} of 81 digits follow without a try, and there is {said}")
    for row in range(0, 81, 9):
        print("  ", *(solutions[0][place] for place in PLACES[row : row + 9]))

# Which given digits are enough to find what is in the middle? Its row, column and box have them.
w = sudoku(EASY, [group for group in GROUPS if PLACES.index("E5") in group])
middle = w.cell("E5")
print(middle.core())
middle.picture().save("sudoku.svg")
