"""MARCO over z3: all minimal sets of what can't hold together, and of what to give up."""

import time
from collections.abc import Mapping
from typing import Any

Sets = set[frozenset[str]]


def marco(
    z3: Any, solver: Any, flags: Mapping[str, Any], most: int, seconds: float
) -> tuple[Sets, Sets, bool]:
    """Conflicts, so many at the most, repairs that were found meanwhile, and whether these are all,
    from the largest sets down. A flag of the solver says by name that something has to hold."""
    until = time.monotonic() + seconds
    names, themap = list(flags), z3.Solver()
    named = {str(flag): name for name, flag in flags.items()}

    def fits(some: set[str]) -> bool:
        return bool(solver.check([flags[name] for name in some]) == z3.sat)

    def core() -> set[str]:
        return {named[str(flag)] for flag in solver.unsat_core()}

    conflicts, repairs = Sets(), Sets()
    while themap.check() == z3.sat:
        if time.monotonic() > until or len(conflicts) >= most:
            return conflicts, repairs, False
        model = themap.model()
        seed = {name for name in names if not z3.is_false(model.eval(flags[name]))}
        if fits(seed):
            for name in names:
                if name not in seed and fits(seed | {name}):
                    seed |= {name}
            out = frozenset(names) - seed
            repairs.add(out)
            themap.add(z3.Or([flags[name] for name in out]))
        else:
            seed = core()
            for name in sorted(seed):
                if name in seed and not fits(seed - {name}):
                    seed = core()
            conflicts.add(frozenset(seed))
            themap.add(z3.Or([z3.Not(flags[name]) for name in seed]))
    return conflicts, repairs, True
