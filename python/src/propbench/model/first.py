"""Which cells are tried out first, where values of cells have to be tried out."""

from dataclasses import dataclass


@dataclass(frozen=True)
class First:
    """Cells of which values are tried out, that with the fewest values first; of values the
    smallest comes first, or the greatest."""

    cells: tuple[str, ...]
    is_from_top: bool = False
