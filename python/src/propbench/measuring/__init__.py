"""Measured quantities: real numbers in units, laws between them, and readings of them.

`w.measured()` of a workbench makes a `Quantity`, and `w.law` states a `Law`.
"""

from typing import TYPE_CHECKING

from propbench.lazily import all_of, names_of

if TYPE_CHECKING:
    from propbench.measuring.quantities import Quantity as Quantity
    from propbench.measuring.terms import Law as Law
else:
    _HOMES = {"propbench.measuring.quantities": "Quantity", "propbench.measuring.terms": "Law"}
    __all__ = all_of(_HOMES)
    __getattr__ = names_of(__name__, _HOMES)
