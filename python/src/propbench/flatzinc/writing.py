"""Solutions and statistics, as MiniZinc reads them from a solver."""

from collections.abc import Iterator, Mapping
from fractions import Fraction

from propbench.flatzinc.building import Built
from propbench.flatzinc.solving import Solutions
from propbench.flatzinc.terms import FlatTerm, Name, Numbers
from propbench.questions import Plan

# A float is written with so many digits behind the point at the most.
_MOST_DIGITS = 18
SOLUTION, COMPLETE = "----------", "=========="
UNSATISFIABLE, UNKNOWN = "=====UNSATISFIABLE=====", "=====UNKNOWN====="


def ending(found: Solutions) -> list[str]:
    """The line that tells whether there are others, where that is known."""
    if not found.plans:
        return [UNSATISFIABLE if found.is_complete else UNKNOWN]
    if found.is_complete and found.margin is not None:
        return [f"% no solution is better by {float(found.margin):.1e}", COMPLETE]
    return [COMPLETE] if found.is_complete else []


def solution(built: Built, plan: Plan) -> Iterator[str]:
    """A line for each variable and array that is to be printed."""
    for variable in built.flat.variables.values():
        if variable.has("output_var"):
            yield f"{variable.name} = {_value(built, plan, Name(variable.name))};"
    for array in built.flat.arrays.values():
        if array.printed is not None:
            sets = ",".join(map(_indices, array.printed))
            values = ",".join(_value(built, plan, each) for each in array.elements)
            yield f"{array.name} = array{len(array.printed)}d({sets},[{values}]);"
    if built.floats is not None:
        # (most models have no floats)
        from propbench.flatzinc.residuals import off_by

        off = off_by(built.flat, built.read(plan))
        yield f"% within {float(off):.1e}"


def statistics(built: Built, found: Solutions, times: Mapping[str, float]) -> Iterator[str]:
    """Statistics by the names that MiniZinc gives them: `propagations` are steps of the program."""
    variables = built.flat.variables.values()
    truths = sum(each.is_truth for each in variables)
    sets = sum(each.is_set for each in variables)
    floats = sum(each.is_float for each in variables)
    lines = built.workbench.model.base()
    numbers: dict[str, object] = {name: f"{seconds:.3f}" for name, seconds in times.items()}
    numbers |= {"nSolutions": len(found.plans), "variables": len(variables)}
    integers = len(variables) - truths - sets - floats
    numbers |= {"intVariables": integers, "boolVariables": truths}
    numbers |= {"setVariables": sets} if sets else {}
    numbers |= {"floatVariables": floats} if floats else {}
    numbers |= {"propagators": sum(line.startswith("attach ") for line in lines)}
    numbers |= {"propagations": found.steps, "cells": built.count}
    if found.objective is not None:
        numbers["objective"] = _objective(built, found.objective)
    for name, value in numbers.items():
        yield f"%%%mzn-stat: {name}={value}"
    yield "%%%mzn-stat-end"


def _objective(built: Built, value: int) -> str:
    """The value of the objective, of a float as the number that its steps make."""
    if built.floats is None or not built.seeks_float:
        return str(value)
    return _float(Fraction(value, built.floats.per_unit))


def _value(built: Built, plan: Plan, term: FlatTerm) -> str:
    found = built.flat.resolved(term)
    if isinstance(found, Name) and found.text in built.sets:
        cells = built.sets[found.text].items()
        return _set(Numbers.of(element for element, cell in cells if plan[cell.name]))
    if isinstance(found, Numbers):
        return _set(found)
    if isinstance(found, Name) and built.flat.variables[found.text].is_float:
        return _float(Fraction(built.read(plan)(found.text)))
    if isinstance(found, Fraction):
        return _float(found)
    value = plan[built.cells[found.text].name] if isinstance(found, Name) else found
    return str(value).lower() if isinstance(value, bool) else str(value)


def _float(value: Fraction) -> str:
    """A float, as MiniZinc reads one: all its digits, where these are few."""
    digits = next((it for it in range(1, _MOST_DIGITS) if value * 10**it % 1 == 0), None)
    if digits is None:
        return repr(float(value))
    whole, rest = divmod(abs(value) * 10**digits, 10**digits)
    return f"{'-' if value < 0 else ''}{whole}.{int(rest):0{digits}}"


def _set(values: Numbers) -> str:
    """A set, as MiniZinc shows one."""
    if len(values.ranges) == 1:
        [(low, high)] = values.ranges
        return f"{low}..{high}"
    return "{" + ",".join(map(str, values.each())) + "}"


def _indices(values: Numbers) -> str:
    low, high = values.ranges[0] if values.ranges else (1, 0)
    return f"{low}..{high}"
