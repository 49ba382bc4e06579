"""Names that a module has from others, each of which is read only once somebody asks for a name.

So what is imported is what is used, and the package starts at once. Type checkers don't see this: a
module tells them the same names by imports under `if TYPE_CHECKING`.
"""

import sys
from collections.abc import Callable, Mapping
from importlib import import_module

# By modules the names that they define, in one text each; a module with no name stands for itself.
Homes = Mapping[str, str]


def names_of(module: str, *homes: Homes) -> Callable[[str], object]:
    """The `__getattr__` of a module, which Python asks for a name that isn't there yet: it finds
    these names in their homes."""
    home_of = {
        name or home.removeprefix(f"{module}."): (home, name)
        for each in homes
        for home, names in each.items()
        for name in names.split() or [""]
    }

    def found(asked: str) -> object:
        if asked not in home_of:
            raise AttributeError(f"module {module!r} has no attribute {asked!r}")
        home, name = home_of[asked]
        there = import_module(home)
        value = getattr(there, name) if name else there
        setattr(sys.modules[module], asked, value)
        return value

    return found


def all_of(homes: Homes) -> list[str]:
    """The names of homes in order, for the `__all__` of a module that has them all."""
    return sorted(name for names in homes.values() for name in names.split())
