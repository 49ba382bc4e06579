"""The points of a curve of calibration from a file: two columns below a head, as a sheet saves
them."""

import os
from fractions import Fraction

from propbench.laboratory.sheets import BadTable, Problem, lines_of_file
from propbench.measuring.exact import number_in

FilePoints = list[tuple[Fraction, Fraction]]


def points_of_file(path: str | os.PathLike[str]) -> FilePoints:
    """The points of a file: what a curve is taken of, and what it is there. Where no commas stand
    between cells they may stand within numbers. Raises BadTable, OSError, and ValueError where it
    is no text in UTF-8."""
    lines, between = lines_of_file(path)
    head = lines[0] if lines else []
    found: FilePoints = []
    problems: list[Problem] = []
    for row, line in enumerate(lines[1:], 2):
        cells = [cell.strip() for cell in line]
        while cells and not cells[-1]:
            cells.pop()
        if not cells:
            continue
        if len(cells) != 2:
            said = f"a point has two cells, its argument and its value, and here are {len(cells)}"
            problems.append(Problem(row, "", said))
            continue
        numbers = [_number(cell, between) for cell in cells]
        for place, number in enumerate(numbers):
            if number is None:
                column = head[place] if place < len(head) else str(place + 1)
                said = f"{cells[place]!r} is no number: write 5, 0.1 or 1e-3, without its unit"
                problems.append(Problem(row, column, said))
        if None not in numbers:
            found.append((numbers[0] or Fraction(0), numbers[1] or Fraction(0)))
    if problems:
        raise BadTable(problems)
    return found


def _number(cell: str, between: str) -> Fraction | None:
    try:
        return number_in(cell if between == "," else cell.replace(",", "."))
    except ValueError:
        return None
