"""Pictures of networks, drawn by Graphviz: cells with their values, what stands between them, and
premises, those that are out in grey.
"""

import os
from dataclasses import replace

from propbench.files import write_file
from propbench.given import count_given, path_given
from propbench.pictures.dot import Look, dot_of
from propbench.pictures.film import Film
from propbench.pictures.graphviz import NoGraphviz, svgs_of
from propbench.showing import printable, quoted
from propbench.watching import Frame, ValueSeen, Watched, bears

# A film looks at so many steps at the most.
_MOST_STEPS = 5000


class Picture:
    """A picture: `dot` is its text for Graphviz, `svg` is drawn when it is first looked at."""

    def __init__(self, dot: str) -> None:
        self.dot = dot
        self._svg: str | None = None

    @property
    def svg(self) -> str:
        """The picture as SVG. Raises NoGraphviz where Graphviz can't draw it."""
        if self._svg is None:
            [self._svg] = svgs_of([self.dot])
        return self._svg

    def __repr__(self) -> str:
        return "a picture: a notebook shows it, and `save` writes it"

    def _repr_svg_(self) -> str:
        return self.svg

    def save(self, path: str | os.PathLike[str]) -> None:
        """Writes the picture to a file: as DOT where its name ends in `.dot`, else as SVG. Raises
        ValueError for a name that ends as if it were something else, NoGraphviz, and OSError: a
        picture that is there stays then."""
        ending = os.path.splitext(path_given(path))[1]
        if ending not in (".dot", ".svg", ""):
            raise ValueError(
                f"a picture is written as .svg or .dot, and not as {printable(ending)}"
            )
        text = self.dot if ending == ".dot" else f"{self.svg}\n"
        write_file(path, text.encode("utf-8", "backslashreplace"))


def picture_of(watched: Watched, cell: str | None = None, parts: bool | None = None) -> Picture:
    """A picture of what is watched, or of what bears on one of its cells. Compounds are drawn with
    their parts where `parts` says so, or where there are few and it says nothing."""
    seen, network = watched.see(), watched.network()
    if cell is not None and not any(each.name == cell for each in network.cells):
        raise ValueError(f"there is no cell {quoted(cell)}")
    if cell is None:
        return Picture(dot_of(network, seen, Look(is_open=parts)))
    shown = seen.values.get(cell)
    if shown is None:
        raise ValueError(f"nothing follows for {quoted(cell)}: what is believed can't all hold")
    lit = bears(watched, seen, shown)
    inner = {name: ValueSeen(name, text, ()) for name, text in lit.says.items()}
    known = replace(seen, values={**inner, **seen.values})
    return Picture(dot_of(network, known, Look(lit=lit, only_lit=True, is_open=parts)))


def film_of(watched: Watched, steps: int) -> Film:
    """The first so many steps of a run from nothing that change something, or end it."""
    most = count_given(steps, "the number of steps")
    taken = watched.steps()
    try:
        kept: list[Frame] = []
        for number in range(_MOST_STEPS):
            frames = taken.take(number)
            if len(frames) <= number or len(kept) > most:
                break
            frame = frames[number]
            if not number or frame.changes or frame.nogoods or frame.end:
                kept.append(frame)
        return Film(watched.network(), kept)
    finally:
        taken.close()


__all__ = ["Film", "NoGraphviz", "Picture", "film_of", "picture_of"]
