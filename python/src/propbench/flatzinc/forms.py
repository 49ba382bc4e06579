"""Whether a file of FlatZinc holds together, before anything is made of it.

Each name is declared, and each constraint has the arguments that it takes. Else NotSupported says
so, with the line.
"""

from collections.abc import Iterable, Sequence
from fractions import Fraction
from math import prod

from propbench.flatzinc.terms import (
    BLAMED,
    TABLE,
    TOUR,
    Array,
    Constraint,
    Flat,
    FlatTerm,
    Name,
    NotSupported,
    Numbers,
    Sort,
    Text,
    Variable,
)
from propbench.showing import quoted

# A set has so many elements at the most.
MOST = 10_000

# What constraints take: `v` a value, `V` an array of them, `c` a constant, `C` an array of them,
# `m` a set, `M` an array of sets, `s` a text; `f` a float, `F` an array of floats, `d` a constant
# that may be one, `D` an array of these.
_TAKES = {
    "array_bool_and": "Vv",
    "array_bool_element": "vVv",
    "array_bool_or": "Vv",
    "array_bool_xor": "V",
    "array_set_element": "vMm",
    "array_var_set_element": "vMm",
    "array_int_element": "vVv",
    "array_int_maximum": "vV",
    "array_int_minimum": "vV",
    "array_var_bool_element": "vVv",
    "array_var_int_element": "vVv",
    "bool2int": "vv",
    "bool_clause": "VV",
    "bool_not": "vv",
    "fzn_all_different_int": "V",
    "int_abs": "vv",
    "int_negate": "vv",
    "propbench_count": "Vv",
    "propbench_room": "VVCc",
    "set_card": "mv",
    "set_in": "vm",
    BLAMED: "vs",
    TABLE: "VC",
    TOUR: "Vc",
}
_TAKES |= {f"int_{each}": "vv" for each in ("eq", "ne", "le", "lt", "ge", "gt")}
_TAKES |= {f"bool_{each}": "vv" for each in ("eq", "ne", "le", "lt")}
_TAKES |= {f"int_lin_{each}": "CVc" for each in ("eq", "ne", "le")}
_TAKES |= {f"bool_lin_{each}": "CVv" for each in ("eq", "ne", "le")}
_TAKES |= {f"int_{each}": "vvv" for each in ("plus", "minus", "times", "div", "mod", "pow")}
_TAKES |= {f"set_{each}": "mm" for each in ("eq", "ne", "le", "lt", "subset", "superset")}
_TAKES |= {f"set_{each}": "mmm" for each in ("diff", "intersect", "symdiff", "union")}
_TAKES |= {"int_pow_fixed": "vvv", "int_max": "vvv", "int_min": "vvv"}
_TAKES |= {"bool_and": "vvv", "bool_or": "vvv", "bool_xor": "vvv"}
_TAKES |= {f"float_{each}": "ff" for each in ("eq", "ne", "le", "lt", "abs", "sqrt")}
_TAKES |= {f"float_lin_{each}": "DFd" for each in ("eq", "ne", "le", "lt")}
_TAKES |= {f"float_{each}": "fff" for each in ("plus", "times", "div", "pow", "max", "min")}
_TAKES |= {"array_float_maximum": "fF", "array_float_minimum": "fF", "int2float": "vf"}
_TAKES |= {"array_float_element": "vDf", "array_var_float_element": "vFf"}
_SORTS = {
    "v": "a value",
    "V": "an array",
    "c": "a constant",
    "C": "an array of constants",
    "m": "a set of numbers",
    "M": "an array of sets",
    "s": "a text",
    "f": "a float",
    "F": "an array of floats",
    "d": "a constant",
    "D": "an array of constants",
}
# What a constraint is called that no file of a user's has by itself.
_OWN = {
    BLAMED: "the mark of a constraint",
    "propbench_count": "a count",
    "propbench_room": "what tasks share",
    TABLE: "a table",
    TOUR: "a tour",
}


def check(flat: Flat) -> None:
    """Raises NotSupported where the model doesn't hold together."""
    for array in flat.arrays.values():
        _check_values(flat, array.elements, array.line)
        _check_printed(array)
    for variable in flat.variables.values():
        _check_variable(flat, variable)
    for each in flat.constraints:
        _check_constraint(flat, each)
    if flat.goal.objective is not None:
        _check_values(flat, [flat.goal.objective], flat.goal.line)
        if not _is_number(flat, flat.resolved(flat.goal.objective), (Sort.NUMBER, Sort.FLOAT)):
            raise NotSupported(flat.goal.line, f"what to {flat.goal.sort} has to be a number")


def called(name: str) -> str:
    """What a constraint is called in a message."""
    return _OWN.get(name.removesuffix("_reif").removesuffix("_imp"), f"the constraint {name}")


def _check_variable(flat: Flat, variable: Variable) -> None:
    if variable.is_set:
        if variable.values is None:
            raise NotSupported(
                variable.line, "of a set it has to be told which numbers it may have"
            )
        _check_size(variable.values, variable.line)
    if variable.value is not None:
        _check_values(flat, [variable.value], variable.line)
        is_float = _is_float(flat, flat.resolved(variable.value))
        is_other = is_float != variable.is_float and not isinstance(variable.value, int)
        if _is_set(flat, flat.resolved(variable.value)) != variable.is_set or is_other:
            raise NotSupported(variable.line, f"{variable.name} has a value of another kind")


def _check_size(values: Numbers, line: int) -> None:
    if values.count() > MOST:
        raise NotSupported(
            line, f"a set has up to {MOST:,} elements, and this one could have {values.count():,}"
        )


def _check_printed(array: Array) -> None:
    if array.printed is None:
        return
    sizes = (sum(high - low + 1 for low, high in each.ranges) for each in array.printed)
    if prod(sizes) != len(array.elements):
        raise NotSupported(
            array.line, f"the array {array.name} is printed over other places than it has"
        )


def _check_constraint(flat: Flat, constraint: Constraint) -> None:
    takes, args = _takes(constraint), constraint.args
    if len(args) != len(takes):
        raise NotSupported(
            constraint.line,
            f"{called(constraint.name)} has {len(args)} arguments, and takes {len(takes)}",
        )
    for place, (sort, each) in enumerate(zip(takes, args), 1):
        found = flat.resolved(each)
        if sort in "vmfVMF":
            _check_values(flat, [found] if sort in "vmf" else _elements(found), constraint.line)
        if not _is_of(sort, found, flat):
            raise NotSupported(
                constraint.line,
                f"argument {place} of {called(constraint.name)} has to be {_SORTS[sort]}",
            )
        if sort in "mM" and not constraint.name.startswith("set_in"):
            for one in [found] if sort == "m" else map(flat.resolved, _elements(found)):
                if isinstance(one, Numbers):
                    _check_size(one, constraint.line)
    if constraint.name == TABLE:
        _check_rows(flat, constraint)
    if takes.startswith(("CV", "DF")) and len(_of_array(flat, args[0])) != len(
        _of_array(flat, args[1])
    ):
        raise NotSupported(
            constraint.line, f"{called(constraint.name)} has as many factors as variables"
        )


def _check_rows(flat: Flat, constraint: Constraint) -> None:
    wide, cells = (len(_of_array(flat, each)) for each in constraint.args)
    if cells % wide if wide else cells:
        raise NotSupported(constraint.line, "a table has as many columns as variables")


def _takes(constraint: Constraint) -> str:
    """What a constraint takes. Raises NotSupported for one that is not known."""
    name = constraint.name
    if name == "bool_xor" and len(constraint.args) == 2:
        return "vv"
    for ending in ("_reif", "_imp"):
        if name.endswith(ending) and name.removesuffix(ending) in _TAKES:
            return _TAKES[name.removesuffix(ending)] + "v"
    if name not in _TAKES:
        raise NotSupported(constraint.line, f"{called(name)} is not supported")
    return _TAKES[name]


def _is_of(sort: str, found: FlatTerm, flat: Flat) -> bool:
    """Whether an argument is of a sort; names in it are looked at elsewhere."""
    if sort == "v":
        is_other = _is_set(flat, found) or _is_float(flat, found)
        return isinstance(found, int | Name) and not is_other
    if sort == "f":
        return isinstance(found, int) or _is_float(flat, found)
    if sort == "m":
        return _is_set(flat, found)
    if sort.isupper():
        each_is = (_is_of(sort.lower(), flat.resolved(each), flat) for each in _elements(found))
        return isinstance(found, tuple) and all(each_is)
    if sort == "d":
        return isinstance(found, int | Fraction)
    return isinstance(found, int if sort == "c" else Text)


def _is_number(flat: Flat, found: FlatTerm, sorts: tuple[Sort, ...] = (Sort.NUMBER,)) -> bool:
    if isinstance(found, Name):
        return flat.variables[found.text].sort in sorts
    return isinstance(found, int | Fraction)


def _is_float(flat: Flat, found: FlatTerm) -> bool:
    if isinstance(found, Name):
        return found.text in flat.variables and flat.variables[found.text].is_float
    return isinstance(found, Fraction)


def _is_set(flat: Flat, found: FlatTerm) -> bool:
    if isinstance(found, Name):
        return found.text in flat.variables and flat.variables[found.text].is_set
    return isinstance(found, Numbers)


def _elements(found: FlatTerm) -> Sequence[FlatTerm]:
    return found if isinstance(found, tuple) else ()


def _of_array(flat: Flat, term: FlatTerm) -> Sequence[FlatTerm]:
    return _elements(flat.resolved(term))


def _check_values(flat: Flat, terms: Iterable[FlatTerm], line: int) -> None:
    """Raises NotSupported where one of these is neither a constant nor a declared variable."""
    for each in terms:
        found = flat.resolved(each)
        if isinstance(found, Name) and found.text not in flat.variables:
            raise NotSupported(line, f"nothing is called {quoted(found.text)}")
        if not isinstance(found, int | Fraction | Name | Numbers):
            raise NotSupported(line, "a variable or a constant is wanted here")
