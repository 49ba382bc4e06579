"""What each constraint of FlatZinc says: at all points of a few variables, by plain numbers."""

from itertools import count, product
from typing import Any

import pytest
from drawn_flatzinc import ALL, Drawn
from test_flatzinc_random import compare

from propbench import Workbench
from propbench.flatzinc.building import Built
from propbench.flatzinc.grammar import read
from propbench.flatzinc.solving import ALL as ALL_OF_THEM
from propbench.flatzinc.solving import Wanted, solve

# What stands in for constants, more than once where it matters: factors with their bound, a set.
FACTORS = ([1, 1, 1], [1, -2, 1], [-1, -1, -1], [2, -1, -1])
BOUNDS = (1, -2)


def case(name: str, factors: list[int], bound: int) -> Drawn:
    """A model of one constraint, each of its places a variable of its own."""
    made, number = Drawn({}), count()

    def fresh(letter: str) -> str:
        cell = f"{letter}{next(number)}"
        made.values[cell] = [False, True] if letter == "b" else list(range(-2, 3))
        return cell

    args: dict[str, Any] = {"c": bound, "s": {-1, 1, 2}, "C": [2, -1, 2, 0], "A": factors}
    arrays = {"X": ("x", 2), "Y": ("x", 3), "B": ("b", 2)}

    def arg(letter: str) -> Any:
        if letter in arrays:
            kind, length = arrays[letter]
            return [fresh(kind) for _ in range(length)]
        return args[letter] if letter in args else fresh("b" if letter == "b" else "x")

    made.constraints.append((name, [arg(letter) for letter in ALL[name][0]]))
    return made


@pytest.mark.parametrize("name", ALL)
def test_each_constraint_at_all_points(program: str, name: str) -> None:
    is_sum = "A" in ALL[name][0]
    for factors in FACTORS if is_sum else FACTORS[:1]:
        for bound in BOUNDS if is_sum else BOUNDS[:1]:
            compare(program, case(name, factors, bound))


ROWS = [(1, 2, 0), (1, 0, 2), (2, 2, 2), (0, 1, 1), (0, 1, 2), (2, 2, 2), (5, 0, 0)]


@pytest.mark.parametrize("wide", (1, 2, 3))
@pytest.mark.parametrize("is_counted", (False, True), ids=("told-apart", "counted"))
def test_a_table_has_these_rows(program: str, wide: int, is_counted: bool) -> None:
    names = ["x", "y", "z"][:wide]
    rows = [row[:wide] for row in ROWS]
    cells = ",".join(str(each) for row in rows for each in row)
    lines = [f"var 0..2: {name} :: output_var;" for name in names]
    lines.append(f"constraint propbench_table([{','.join(names)}],[{cells}]);")
    right = set(product(range(3), repeat=wide)) & set(rows)
    if is_counted:
        lines.append("constraint int_lt(0,x);")
        right = {row for row in right if row[0] > 0}
    text = "\n".join([*lines, "solve satisfy;", ""])
    with Workbench(program) as workbench:
        found = solve(Built(read(text), workbench), Wanted(ALL_OF_THEM))
    assert found.is_complete
    assert sorted(tuple(plan[name] for name in names) for plan in found.plans) == sorted(right)


def test_a_table_without_a_row_that_can_be(program: str) -> None:
    for table in ("[7,7]", "[]"):
        text = f"var 0..2: x;\nvar 0..2: y;\nconstraint propbench_table([x,y],{table});\n"
        with Workbench(program) as workbench:
            found = solve(Built(read(text + "solve satisfy;\n"), workbench), Wanted())
        assert found.is_complete and not found.plans


def test_a_table_of_many_rows_and_columns(program: str) -> None:
    rows = [row for row in product(range(5), repeat=3) if sum(row) % 4 != 1]
    cells = ",".join(str(each) for row in rows for each in row)
    text = "".join(f"var 0..4: {name};\n" for name in "xyz")
    text += f"constraint propbench_table([x,y,z],[{cells}]);\n"
    text += "constraint int_eq(x,3);\nconstraint int_ne(y,z);\nsolve satisfy;\n"
    with Workbench(program) as workbench:
        found = solve(Built(read(text), workbench), Wanted(ALL_OF_THEM))
    right = sorted(row for row in rows if row[0] == 3 and row[1] != row[2])
    assert found.is_complete and len(rows) > 64
    assert sorted(tuple(plan[name] for name in "xyz") for plan in found.plans) == right


def test_a_table_of_a_few_blocks_has_no_cell_for_its_row(program: str) -> None:
    blocks = [(range(3, 21), (*range(2, 10), 30)), (range(25, 31), range(5)), ((40, 9), (39, 40))]
    rows = [(one, other) for ones, others in blocks for one in ones for other in others]
    cells = ",".join(f"{one},{other}" for one, other in rows)
    text = "var 0..40: x;\nvar 0..40: y;\n"
    text += f"constraint propbench_table([x,y],[{cells}]);\nconstraint int_le(y,x);\n"
    with Workbench(program) as workbench:
        built = Built(read(f"{text}solve satisfy;\n"), workbench)
        found = solve(built, Wanted(ALL_OF_THEM))
        assert list(built.workbench.model.cells()) == ["x", "y"]
    right = sorted({row for row in rows if row[1] <= row[0]})
    assert found.is_complete and len(right) > 100
    assert sorted((plan["x"], plan["y"]) for plan in found.plans) == right


def test_one_or_another_order_takes_a_cell_for_each_and_one_for_both(program: str) -> None:
    text = "var 0..9: x;\nvar 0..9: y;\n"
    text += "".join(f"var bool: {b} :: var_is_introduced :: is_defined_var;\n" for b in "abc")
    text += "constraint int_lin_le_reif([1,-1],[x,y],-3,a) :: defines_var(a);\n"
    text += "constraint int_lin_le_reif([1,-1],[y,x],-4,b) :: defines_var(b);\n"
    text += "constraint array_bool_or([a,b],c) :: defines_var(c);\nconstraint bool_eq(c,true);\n"
    with Workbench(program) as workbench:
        built = Built(read(f"{text}solve satisfy;\n"), workbench)
        found = solve(built, Wanted(ALL_OF_THEM))
        lines = built.workbench.model.base()
    attached = sorted(line.split()[1] for line in lines if line.startswith("attach "))
    assert attached == ["and", "less", "less", "sum", "sum"]
    right = [(x, y) for x, y in product(range(10), repeat=2) if x + 3 <= y or y + 4 <= x]
    assert found.is_complete and sorted((it["x"], it["y"]) for it in found.plans) == right


@pytest.mark.parametrize("capacity", (1, 2, 3))
def test_tasks_share_what_there_is(program: str, capacity: int) -> None:
    """Of which one may need more than there is, and some may take no time, or less."""
    names, needs = ["s", "t", "u", "d", "e"], (1, 2, 1)
    lines = [f"var {'-1' if name in 'de' else '0'}..2: {name} :: output_var;" for name in names]
    lines.append(f"constraint propbench_room([s,t,u],[d,e,1],[1,2,1],{capacity});")
    text = "\n".join([*lines, "solve satisfy;", ""])
    right = []
    for s, t, u, d, e in product(range(3), range(3), range(3), range(-1, 3), range(-1, 3)):
        tasks = list(zip((s, t, u), (d, e, 1), needs))
        runs = [
            sum(n for start, long, n in tasks if start <= day < start + long) for day in range(5)
        ]
        if max(runs) <= capacity:
            right.append((s, t, u, d, e))
    with Workbench(program) as workbench:
        found = solve(Built(read(text), workbench), Wanted(ALL_OF_THEM))
    assert found.is_complete
    assert sorted(tuple(plan[name] for name in names) for plan in found.plans) == right
