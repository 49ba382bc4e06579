"""Graphviz: draws a text in DOT as SVG. It is a program of its own, called `dot`."""

import re
import shutil
import subprocess
from collections.abc import Sequence

# How long it may take, in seconds.
_LONGEST = 60.0


class NoGraphviz(Exception):
    """Graphviz isn't there, or could not draw."""


def svgs_of(texts: Sequence[str]) -> list[str]:
    """The pictures of texts in DOT, each an SVG element. Raises NoGraphviz."""
    path = shutil.which("dot")
    if path is None:
        raise NoGraphviz(
            "a picture is drawn by Graphviz, which isn't installed (apt-get install graphviz);"
            " `.dot` has the picture as a text"
        )
    try:
        drawn = subprocess.run(
            [path, "-Tsvg"],
            input="".join(texts).encode("utf-8", "backslashreplace"),
            stdout=subprocess.PIPE,
            stderr=subprocess.PIPE,
            timeout=_LONGEST,
        )
    except subprocess.TimeoutExpired:
        raise NoGraphviz(f"Graphviz took more than {_LONGEST:.0f} seconds") from None
    found = re.findall(r"<svg\b.*?</svg>", drawn.stdout.decode(), flags=re.S)
    if drawn.returncode or len(found) != len(texts):
        raise NoGraphviz(f"Graphviz could not draw: {drawn.stderr.decode(errors='replace')[:300]}")
    return found
