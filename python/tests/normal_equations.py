"""The normal equations of a net of levels, and their solution in exact fractions."""

from fractions import Fraction


def solved(rows: list[list[Fraction]], right: list[Fraction]) -> list[Fraction]:
    """The solution of equations, by elimination in exact fractions."""
    size, full = len(rows), [[*row, each] for row, each in zip(rows, right)]
    for column in range(size):
        pivot = next(row for row in range(column, size) if full[row][column])
        full[column], full[pivot] = full[pivot], full[column]
        full[column] = [each / full[column][column] for each in full[column]]
        for row in range(size):
            if row != column:
                by = full[row][column]
                full[row] = [one - by * other for one, other in zip(full[row], full[column])]
    return [row[-1] for row in full]


def normal(lines: list[tuple[str, str, str, str]]) -> tuple[list[list[Fraction]], list[Fraction]]:
    """The normal equations of a net, for the heights above A."""
    names = sorted({name for line in lines for name in line[:2]} - {"A"})
    rows = [[Fraction(0)] * len(names) for _ in names]
    right = [Fraction(0)] * len(names)
    for begin, end, read, u in lines:
        weight = 1 / Fraction(u) ** 2
        signs = {names.index(n): s for n, s in ((begin, -1), (end, 1)) if n != "A"}
        for one, sign in signs.items():
            right[one] += sign * weight * Fraction(read)
            for other, also in signs.items():
                rows[one][other] += sign * also * weight
    return rows, right
